# The events of order.yaml, with a scalar that is said to be longer than the text.
2 1 0 direct map 0 none -
2 1 0 direct scalar 0 none - plain 52 4
2 7 0 direct map 1 none -
3 3 0 direct scalar 0 none - plain 68 1
3 6 0 direct scalar 0 none - plain 71 3
4 3 0 direct scalar 0 none - plain 77 1
4 6 0 direct scalar 0 none - plain 80 4
5 3 0 direct scalar 0 none - plain 87 1
5 6 0 direct scalar 0 none - plain 90 5
6 3 0 direct scalar 0 none - plain 98 1
6 6 0 direct scalar 0 none - plain 101 1
7 1 0 direct endmap
7 1 0 direct scalar 0 none - plain 103 9
8 3 0 direct map 0 none -
8 3 0 direct scalar 0 none - plain 116 2
2 7 0 alias 8 7 0 map 1 none -
3 3 0 alias 8 7 0 scalar 0 none - plain 68 1
3 6 0 alias 8 7 0 scalar 0 none - plain 71 3
4 3 0 alias 8 7 0 scalar 0 none - plain 77 1
4 6 0 alias 8 7 0 scalar 0 none - plain 80 4
5 3 0 alias 8 7 0 scalar 0 none - plain 87 1
5 6 0 alias 8 7 0 scalar 0 none - plain 90 5
6 3 0 alias 8 7 0 scalar 0 none - plain 98 1
6 6 0 alias 8 7 0 scalar 0 none - plain 101 1
7 1 0 alias 8 7 0 endmap
9 3 0 direct scalar 0 none - plain 130 1
9 6 0 direct scalar 0 none - plain 133 2
10 3 0 direct scalar 0 none - plain 138 4
10 9 0 direct scalar 0 none - double 145 21
11 1 0 direct endmap
11 1 0 direct endmap
