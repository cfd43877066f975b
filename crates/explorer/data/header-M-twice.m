2 M1e M1e
