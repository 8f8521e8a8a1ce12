# ./nms_tool as a child process on two pipes, from any language. It prints examples/python/child.out.
#
#     python3 examples/python/child.py ./nms_tool
#
# Each answer is flushed before the next record is read, so a record can be written and its answer read, again and again.
import subprocess
import sys

child = subprocess.Popen([sys.argv[1], "script"], stdin=subprocess.PIPE, stdout=subprocess.PIPE, text=True, bufsize=1)


def tell(*records: str) -> None:
    """Writes records."""
    child.stdin.writelines(record + "\n" for record in records)
    child.stdin.flush()


def answer(last: str) -> None:
    """Prints lines up to the first that begins with a word."""
    for line in child.stdout:
        print(line, end="")
        if line.startswith(last):
            break


# A quotation is sent to the queue, and F takes it and publishes; then a look, and an order.
tell("Q,N,ABC,A,9.99,200,10.00,300", "Q,P,ABC,A,9.98,700,10.00,500", "F")
answer("PUB")
tell("N,0,ABC")
answer("BEST")
tell("O,0,B,ABC,600,10.01")
answer("END")
# The number of a refused record counts from 1, and it leaves everything as it was.
tell("Q,N,ABC,A,9.99,,10.00,300")
answer("ERR")

child.stdin.close()
print("status", child.wait())
