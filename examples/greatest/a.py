print(conn.namespace["y"])
