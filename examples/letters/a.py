print(conn.namespace["z"])
print(conn.namespace["a"])
print(conn.namespace["b"])
print(conn.namespace["z"])
