#!/usr/bin/env python3
"""Makes a day of quotes in the layout of examples/import/taq.toml, one file for each letter.

    make_day.py FOLDER [ROWS [LETTERS [SYMBOLS [SEED]]]]

ROWS (6,000) are spread over LETTERS (ABC) with SYMBOLS (8) symbols each, the first ones quoted most. Rows come by symbol,
and by time within a symbol. Sizes are round lots of 100. The same words give the same bytes.
"""
import gzip
import os
import random
import sys

NAMES = ("Time|Exchange|Symbol|Bid_Price|Bid_Size|Offer_Price|Offer_Size|Quote_Condition|Sequence_Number|National_BBO_Ind|"
         "FINRA_BBO_Indicator|FINRA_ADF_MPID_Indicator|Quote_Cancel_Correction|Source_Of_Quote|Retail_Interest_Indicator|"
         "Short_Sale_Restriction_Indicator|LULD_BBO_Indicator|SIP_Generated_Message_Identifier|NBBO_LULD_Indicator|"
         "Participant_Timestamp|FINRA_ADF_Timestamp|FINRA_ADF_Market_Participant_Quote_Indicator|Security_Status_Indicator")
VENUES = "ABCHJKLMNPTUVXYZ"


def clock(nanoseconds):
    """A time after midnight as HHMMSSnnnnnnnnn."""
    seconds, rest = divmod(nanoseconds, 10 ** 9)
    return f"{seconds // 3600:02}{seconds // 60 % 60:02}{seconds % 60:02}{rest:09}"


def rows_of(symbol, count, draw):
    """The quotes of a symbol: a middle that drifts by cents, and venues that follow it."""
    cents = draw.randrange(500, 30000)
    times = sorted(draw.randrange(34_200 * 10 ** 9, 57_600 * 10 ** 9) for _ in range(count))
    for number, time in enumerate(times):
        cents = max(100, cents + draw.choice((-1, 0, 0, 0, 1)))
        bid, offer = cents - draw.randint(0, 3), cents + draw.randint(1, 4)
        bids, offers = draw.choice((0, 1, 1, 2, 3, 5)), draw.choice((0, 1, 1, 2, 4, 8))
        yield (f"{clock(time)}|{draw.choice(VENUES)}|{symbol}|{bid // 100}.{bid % 100:02}|{bids}|{offer // 100}.{offer % 100:02}|{offers}"
               f"|R|{number}|0||||N|||||||||\n")


def main(folder, rows="6000", letters="ABC", symbols="8", seed="1"):
    draw = random.Random(seed)
    weights = [1 / (place + 1) for place in range(int(symbols))]
    share = int(rows) / len(letters) / sum(weights)
    for letter in letters:
        path = os.path.join(folder, f"SPLITS_US_ALL_BBO_{letter}_20240102.gz")
        with gzip.GzipFile(path, "wb", compresslevel=1, mtime=0) as file:
            file.write((NAMES + "\n").encode())
            count = 0
            for place, weight in enumerate(weights):
                name = letter + "".join(chr(65 + place // 26 ** it % 26) for it in (1, 0))
                own = max(1, round(share * weight))
                file.writelines(row.encode() for row in rows_of(name, own, draw))
                count += own
            file.write(f"END|20240102|{count}\n".encode())


main(*sys.argv[1:])
