#!/usr/bin/env python3
"""Makes a skewed day of quotes with the 23 columns of NYSE Daily TAQ, sorted by symbol and time.

    taq_day.py ROWS FILE [SYMBOLS [SEED]]

SYMBOLS is 5,000 if it is not given. Sixteen exchanges quote, Nasdaq as Q and as T. A symbol of rank r has a share in
proportion to 1 / (r + 15): the busiest has 1.1 % of the rows, the first ten 8 %, a hundred 36 %, a thousand 71 %. Prices
drift, and one row in a thousand has a condition that makes one side alone manual. The same words give the same bytes.
Beside FILE it writes FILE.toml, a setup with the first 1,000 of its symbols.
"""
import random
import sys

NAMES = ("Time|Exchange|Symbol|Bid_Price|Bid_Size|Offer_Price|Offer_Size|Quote_Condition|Sequence_Number|National_BBO_Ind|"
         "FINRA_BBO_Indicator|FINRA_ADF_MPID_Indicator|Quote_Cancel_Correction|Source_Of_Quote|Retail_Interest_Indicator|"
         "Short_Sale_Restriction_Indicator|LULD_BBO_Indicator|SIP_Generated_Message_Identifier|NBBO_LULD_Indicator|Participant_Timestamp|"
         "FINRA_ADF_Timestamp|FINRA_ADF_Market_Participant_Quote_Indicator|Security_Status_Indicator")
EXCHANGES = "ABCHJKLMNPQTUVXYZ"
LETTERS = "ABCDEFGHIJKLMNOPQRSTUVWXYZ"
OPEN, LENGTH = 34200 * 10 ** 9, 23400 * 10 ** 9


def names(count, draw):
    """A number of symbols of three or four letters, in order."""
    found = set()
    while len(found) < count:
        found.add("".join(draw.choice(LETTERS) for _ in range(draw.choice((3, 4)))))
    return sorted(found)


def clock(nanos):
    """The 15 digits of nanoseconds after midnight."""
    second, nano = divmod(nanos, 10 ** 9)
    return f"{second // 3600:02}{second // 60 % 60:02}{second % 60:02}{nano:09}"


def rows_of(symbol, count, draw):
    """The rows of a symbol."""
    cents, tape = draw.randrange(300, 60000), draw.choice("CN")
    for number, time in enumerate(sorted(OPEN + int(draw.random() * LENGTH) for _ in range(count))):
        luck = draw.random()
        cents = max(100, cents + (1 if luck < 0.1 else -1 if luck < 0.2 else 0))
        half = 1 + int(luck * 40) % 4
        condition = "A" if luck > 0.999 else "R"
        bid, offer = cents - half, cents + half
        bid_size, offer_size = 1 + int(luck * 1000) % 9, 1 + int(luck * 10000) % 9
        yield (f"{clock(time)}|{EXCHANGES[int(luck * 1700000) % 17]}|{symbol}|{bid // 100}.{bid % 100:02}|{bid_size}|{offer // 100}.{offer % 100:02}|"
               f"{offer_size}|{condition}|{number + 1}|0||||{tape}||||||{clock(time - 20000)}|||\n")


def main(rows, path, symbols="5000", seed="1"):
    """Writes the day."""
    draw = random.Random(seed)
    all_names = names(int(symbols), draw)
    ranks = list(range(len(all_names)))
    draw.shuffle(ranks)
    weights = [1 / (rank + 16) for rank in ranks]
    whole, left, done = sum(weights), 0.0, 0
    with open(path, "w", encoding="ascii") as file:
        file.write(NAMES + "\n")
        for symbol, weight in zip(all_names, weights):
            left += weight
            count = round(int(rows) * left / whole) - done
            done += count
            file.writelines(rows_of(symbol, count, draw))
        file.write(f"END|20240102|{done}\n")
    with open(path + ".toml", "w", encoding="ascii") as file:
        file.write("# A made setup: the fees and rates are placeholders.\ntape_limit = 10000000\nqueue = 1024\ndesks = 4\n")
        file.writelines(f'\n[[participant]]\nname = "{name}"\nfeed = "A"\nfee = 3000000\nrate = 300\n' for name in EXCHANGES if name != "T")
        file.writelines(f'\n[[symbol]]\nname = "{name}"\nlot = 100\n' for name in all_names[:1000])


main(*sys.argv[1:])
