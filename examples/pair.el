; Two processes side by side. The output of one goes through the default filter, that of the other
; through `insert-filter`, a handler of the program. `note-sentinel` is another: it notes both ends.

(get-buffer-create "right")
(set-buffer "right")
(insert "Output:\n")
(goto-char 1)
(setq left (start-process "left" "left" "sh" "-c" "printf 'to the left\\n'"))
(setq right (start-process "right" "right" "sh" "-c" "printf 'to the right\\n'; exit 2"))
(set-process-filter right 'insert-filter)
(set-process-sentinel left 'note-sentinel)
(set-process-sentinel right 'note-sentinel)

; A wait asks the process that it is for first, and ends with a piece of its output.
(accept-process-output right)
(accept-process-output left)

; The third one hears the end of both outputs, the left one first, and then how the left child
; has ended. The fourth one hears how the right one has.
(accept-process-output left)
(accept-process-output right)
(process-list)
