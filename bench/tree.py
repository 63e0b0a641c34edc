"""The tree that the benchmarks of rosters, changesets, joining and marks share."""
import random


def tree():
    """The paths of 100,000 nodes, 20 to a directory, the root first; a directory's ends with a slash."""
    random.seed(7)
    lines, queue, n = ['/'], [''], 1
    while n < 100000:
        above = queue.pop(0)
        for k in range(20):
            if n == 100000:
                break
            path = (above + '/' if above else '') + 'node_%05x' % random.randrange(1 << 20) + '_%d' % k
            if k == 0 or len(queue) + n // 20 < 5200:
                lines.append(path + '/')
                queue.append(path)
            else:
                lines.append(path)
            n += 1
    return lines
