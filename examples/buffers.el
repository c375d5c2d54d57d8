; Buffers, narrowing and blocks.

(current-buffer)
(setq notes (get-buffer-create "notes"))
(generate-new-buffer "notes")
(get-buffer "none")
(get-buffer "notes")
(buffer-list)
(set-buffer notes)
(rename-buffer "notes<2>")
(rename-buffer "diary")
(buffer-name)

(insert "one\ntwo\nthree\n")
(buffer-modified-p)
(set-buffer-modified-p nil)
(buffer-modified-p notes)
(goto-char 6)
(char-after)
(char-after 1)
(char-after 99)

; What is put in at the ends of the accessible portion lies inside. The last call is refused, which
; ends the block; the buffer is made wide again all the same.
(save-restriction
  (narrow-to-region 5 9)
  (buffer-string)
  (point-min)
  (point-max)
  (buffer-narrowed-p)
  (buffer-size)
  (goto-char 1)
  (point)
  (insert "[")
  (goto-char 99)
  (insert "]")
  (delete-region 1 2))
(buffer-narrowed-p)
(buffer-string)

(save-current-buffer
  (set-buffer "notes<2>")
  (insert-buffer-substring notes 5 11)
  (goto-char 1)
  (delete-and-extract-region 1 2))
(current-buffer)
(save-excursion
  (goto-char 1)
  (insert "> "))
(point)
(when-eq 1 2
  (insert "never"))
(when-eq notes notes
  (erase-buffer))
(buffer-string)

; A killed buffer is still an object. There is always one that lives.
(kill-buffer "notes<2>")
(kill-buffer)
(buffer-live-p notes)
(buffer-name notes)
(get-buffer notes)
(current-buffer)
(kill-buffer)
(buffer-list)
