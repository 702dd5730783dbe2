n = 20000
a = []
for i in range(n):
    a += [i * 2]
total = 0
for x in a:
    total += x
for i in range(n):
    a[i] = a[i] + 1
print(total, len(a), -1 in a)
