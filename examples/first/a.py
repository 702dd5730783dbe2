print(conn.namespace["x"])
