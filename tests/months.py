"""The first day of each month of the century, and of the next, where windows can end by their length; used by `compare` and its measures."""
from calendar import monthrange
from itertools import accumulate

TABLE = 1200  # the last entry of the month table
MONTHS = list(accumulate((monthrange(2000 + k // 12, k % 12 + 1)[1] for k in range(2 * TABLE)), initial=0))
