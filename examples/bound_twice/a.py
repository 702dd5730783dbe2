print(conn.namespace["x"])
print(conn.namespace["y"])
print(conn.namespace["x"])
