; A view of a log that keeps the last three messages. Each message that comes drops the oldest one.
; Markers stand where the second and the third message begin, so no text is searched.

(defhandler keep (process text)
  (set-buffer log)
  (save-restriction
    (widen)
    (setq end (point-max))
    (setq start (copy-marker end))
    (goto-char end)
    (insert text)
    (delete-region 1 second)
    (set-marker second third)
    (set-marker third start)))

; A log grows without end, so nothing of it is kept for undoing.
(setq log (get-buffer-create "*log*"))
(set-buffer log)
(buffer-disable-undo)
(setq second (point-marker))
(setq third (point-marker))

(setq daemon (start-process "daemon" "*log*" "cat"))
(set-process-filter daemon 'keep)
(process-send-string daemon "one\n")
(accept-process-output daemon)
(process-send-string daemon "two\n")
(accept-process-output daemon)
(process-send-string daemon "three\n")
(accept-process-output daemon)
(buffer-string)
(process-send-string daemon "four,\nof two lines\n")
(accept-process-output daemon)
(buffer-string)

; Somebody reads the last message in a narrowed view. More comes behind it, and what is seen stays the same.
(narrow-to-region third 29)
(process-send-string daemon "five\n")
(accept-process-output daemon)
(buffer-string)
(widen)
(buffer-string)
