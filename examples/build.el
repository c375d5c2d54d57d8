; A build pane. Each step of a build is a child, and the lines of all steps go to one buffer.
; The filter puts a line in at the mark of its process, and marks it by its first letter:
; 101 is the code of e, as in error, and 119 that of w, as in warning.
; The sentinel notes how a step has ended.

(defhandler show (process text)
  (setq pane (process-buffer process))
  (set-buffer pane)
  (setq mark (process-mark process))
  (goto-char mark)
  (setq from (point))
  (insert text)
  (setq to (point))
  (set-marker mark to)
  (setq letter (char-after from))
  (when-eq letter 101 (put-text-property from to 'face 'error))
  (when-eq letter 119 (put-text-property from to 'face 'warning)))

(defhandler note (process text)
  (setq pane (process-buffer process))
  (set-buffer pane)
  (setq to (point-max))
  (goto-char to)
  (setq name (process-name process))
  (insert name ": " text))

; The first wait hears the line, the second one the end of the output and then that of the child.
(setq a (start-process "a" "*build*" "sh" "-c" "printf 'warning: unused variable\\n'"))
(set-process-filter a 'show)
(set-process-sentinel a 'note)
(accept-process-output a)
(accept-process-output a)

(setq b (start-process "b" "*build*" "sh" "-c" "printf 'error: mismatched types\\n'; exit 1"))
(set-process-filter b 'show)
(set-process-sentinel b 'note)
(accept-process-output b)
(accept-process-output b)
(process-exit-status b)

; To the first error.
(set-buffer "*build*")
(setq end (point-max))
(setq place (text-property-any 1 end 'face 'error))
(goto-char place)
