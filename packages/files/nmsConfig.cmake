# find_package(nms 0.3) gives nms::nms (libnms.so) and nms::static (libnms.a). The installation may be moved.
get_filename_component(_nms_prefix "${CMAKE_CURRENT_LIST_DIR}/../../.." ABSOLUTE)
if(NOT TARGET nms::nms)
  add_library(nms::nms SHARED IMPORTED)
  set_target_properties(nms::nms PROPERTIES
    IMPORTED_LOCATION "${_nms_prefix}/lib/@SONAME@"
    IMPORTED_SONAME "@SONAME@"
    INTERFACE_INCLUDE_DIRECTORIES "${_nms_prefix}/include")
  add_library(nms::static STATIC IMPORTED)
  set_target_properties(nms::static PROPERTIES
    IMPORTED_LOCATION "${_nms_prefix}/lib/libnms.a"
    INTERFACE_INCLUDE_DIRECTORIES "${_nms_prefix}/include")
endif()
unset(_nms_prefix)
