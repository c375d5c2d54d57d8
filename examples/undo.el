; Undo across output. A group holds what was typed and what a child wrote, in the order in which
; both came, and goes back as a whole.

(defhandler quiet (process text))

(insert "Notes\n")
(undo-boundary)
(setq p (start-process "p" "*scratch*" "sh" "-c" "printf 'one\\ntwo\\n'"))
(set-process-sentinel p 'quiet)
(goto-char 1)
(accept-process-output p)
(insert "> ")
(buffer-string)
(undo-boundary)
(accept-process-output p)

; The first group is empty, since a boundary is the newest record.
(undo-start)
(undo-more 2)
(buffer-string)
(buffer-undo-list)

; Undoing is recorded, so it can be undone; the mark of the process goes back too.
(undo-boundary)
(undo-start)
(undo-more 2)
(buffer-string)
(process-mark p)

; Undoing never reaches outside the accessible portion.
(narrow-to-region 1 3)
(undo-start)
(undo-more 1)
