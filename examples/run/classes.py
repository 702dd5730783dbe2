class Shape:
    sides = 0
    def __init__(self, name):
        self.name = name
    def __repr__(self):
        return self.name + str(self.sides)

class Square(Shape):
    sides = 4

shapes = [Square("s"), [Square("t"), Shape("p")]]
shapes.append(Square("s").sides)
print(shapes, ",".join(sorted(["b", "a"])))
