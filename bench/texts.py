n = 60000
line = ""
count = 0
i = 0
while i < n:
    line = line + str(i % 10)
    if len(line) == 60:
        count += len(line + "end")
        line = ""
    i += 1
print(count)
