a = [3, 1]
a[0] = 5
a += (7,)
for x in a:
    print(x)
print(a, 7 in a, a == [5, 1, 7], len(a))
