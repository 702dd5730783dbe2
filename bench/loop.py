n = 400000
i = 0
total = 0
while i < n:
    if i % 3 == 0:
        total = total + i * 2
    else:
        total -= i
    i += 1
print(total)
