# The loop of while_loop.py in another layout.

def f(n):	# from 0 to n
	i = (0)

	while (i < n) \
	:
		# a line ends where its brackets close
		i = (i + 1
		)

	return i	# n, or 0
