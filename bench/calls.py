n = 150000


def adder(step):
    def add(value):
        return value + step
    return add


def twice(function, value):
    return function(function(value))


one = adder(1)
total = 0
i = 0
while i < n:
    total = twice(one, total)
    total = (lambda x: x - 1)(total)
    i += 1
print(total)
