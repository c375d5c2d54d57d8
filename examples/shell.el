; A shell in a buffer. What is sent is the shell's input, and what it says goes in at its mark.
; When a shell has ended, its sentinel says so and starts the next one.

(defhandler show (process text)
  (set-buffer home)
  (setq mark (process-mark process))
  (goto-char mark)
  (insert text)
  (setq to (point))
  (set-marker mark to))

(defhandler restart (process text)
  (set-buffer home)
  (setq to (point-max))
  (goto-char to)
  (insert "shell: " text)
  (setq shell (start-process "shell" home "sh"))
  (set-process-filter shell 'show))

(setq home (get-buffer-create "*shell*"))
(setq shell (start-process "shell" home "sh"))
(set-process-filter shell 'show)
(set-process-sentinel shell 'restart)
(process-send-string shell "echo hello\n")
(accept-process-output shell)

; The first shell is still on the list while its sentinel runs, so the next one gets another name.
(process-send-string shell "exit 3\n")
(accept-process-output shell)
(process-list)
(process-send-string shell "echo again\n")
(accept-process-output shell)

; Its input closed, a shell takes no more. It isn't waited for, so it is killed at the end.
(process-send-eof shell)
(process-send-string shell "echo more\n")
