; Change hooks. The function before a change keeps the text that is about to go; the one behind it
; marks the text that came. Neither hears of a change that a hook function makes itself.

(defhandler keep (from to)
  (setq old (buffer-substring from to)))

(defhandler mark (from to length)
  (put-text-property from to 'face 'new))

(insert "abcd")
(add-hook 'before-change-functions 'keep)
(add-hook 'after-change-functions 'mark)
(goto-char 3)
(insert "xy")
(delete-region 1 3)
(inhibit-hooks
  (insert "!"))

; A function that ends by a fault empties its list, and the change goes on.
(defhandler fail (from to)
  (goto-char unset))

(add-hook 'before-change-functions 'fail)
(insert "z")
(insert "q")
(remove-hook 'after-change-functions 'mark)
(insert ".")

; A function before a change may edit the text: the ends of the change move along.
(defhandler trim (from to)
  (delete-region 1 3))

(add-hook 'before-change-functions 'trim)
(delete-region 6 7)
