; A transcript as terminals have it. Output goes in at the mark of its process, in front of the prompt.
; What is being typed behind the prompt stays as it is, whatever comes meanwhile.

(defhandler show (process text)
  (set-buffer "*terminal*")
  (save-excursion
    (setq mark (process-mark process))
    (goto-char mark)
    (insert text)
    (setq to (point))
    (set-marker mark to)))

(setq shell (start-process "shell" "*terminal*" "sh"))
(set-process-filter shell 'show)
(set-buffer "*terminal*")
(insert #("$ " 0 2 (face prompt)))
(setq input (point-marker))

; Half of a command is typed, output comes, and the other half is typed.
(process-send-string shell "echo ready\n")
(insert "echo do")
(accept-process-output shell)
(insert "ne")
(buffer-string)

; The line is sent. It becomes a part of the transcript, and a new prompt stands behind it.
(setq end (point-max))
(setq line (buffer-substring-no-properties input end))
(insert "\n")
(setq end (point-max))
(setq mark (process-mark shell))
(set-marker mark end)
(insert #("$ " 0 2 (face prompt)))
(setq end (point-max))
(set-marker input end)
(process-send-string shell line)
(process-send-string shell "\n")
(accept-process-output shell)
(buffer-string)

; Its input closed, the shell ends, and the default sentinel says so at the mark.
(process-send-eof shell)
(accept-process-output shell)
