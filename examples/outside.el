(insert "ab")
(delete-region 1 9)
(goto-char 7)
(insert "c")
