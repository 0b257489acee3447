"""What the tools share: the program as a process, the grammar of scripts, answers in words, pages and
pictures of runs."""
