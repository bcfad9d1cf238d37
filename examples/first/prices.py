import livevec
with livevec.Vector([300, 120, 500, 80]) as prices:
    prices[0] = 180
    print(prices.sum(), prices.least(0, 2))  # the sum of all, and the minimum of the first two
# prints: 880 120
