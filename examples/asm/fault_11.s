.zero 16777217          # one more than 2^24
