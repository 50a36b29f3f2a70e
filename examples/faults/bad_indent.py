def f(n):
    if n:
	    return n
    return 0
