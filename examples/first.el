(insert "hello")(goto-char 2)(delete-region 2 3)
