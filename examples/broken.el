; These bytes are no script: the string in the fourth line doesn't end. Nothing is run.
(insert "ab")
(goto-char 1)
(insert "c)
(delete-region 1 2)
