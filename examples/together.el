; Two people in one text. What the other one writes comes from a child and goes in at a marker of theirs.
; Each change is a group of its own, so undoing goes back through the work of both, the newest first.

(defhandler hear (process text)
  (set-buffer home)
  (save-excursion
    (undo-boundary)
    (goto-char theirs)
    (insert text)
    (setq to (point))
    (set-marker theirs to)
    (undo-boundary)))

(setq home (current-buffer))
(insert "Ours: \nTheirs: \n")
(setq theirs (copy-marker 16))
(setq peer (start-process "peer" nil "cat"))
(set-process-filter peer 'hear)
(undo-boundary)

; We write, they write, we write.
(goto-char 7)
(insert "red")
(process-send-string peer "blue")
(accept-process-output peer)
(insert ", green")
(buffer-string)

; Back goes our last change, then theirs.
(undo-start)
(undo-more 1)
(buffer-string)
(undo-more 1)
(buffer-string)

; Undoing is recorded as well. Undone in its turn, it brings both back, and their marker with them.
(undo-boundary)
(undo-start)
(undo-more 2)
(buffer-string)
(marker-position theirs)
