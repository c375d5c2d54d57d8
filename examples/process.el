; What can be asked of a process, and set. `cat` says again what it is sent.

(defhandler quiet (process text))

(setq p (start-process "p" "out" "cat"))
(process-name p)
(process-status p)
(process-live-p p)
(process-exit-status p)
(process-buffer p)
(process-mark p)
(process-filter p)
(process-sentinel p)
(get-process "p")
(get-process "none")
(set-process-sentinel p 'quiet)
(set-process-filter p 'drop-filter)
(process-filter p)
(process-send-string p "lost\n")
(accept-process-output p)

; A mark that isn't in the process's buffer counts as the end of what is accessible there.
(set-process-filter p nil)
(set-process-buffer p "*scratch*")
(process-send-string p "here\n")
(accept-process-output p)
(process-mark p)

; A process whose filter is off isn't asked, so this wait ends at once.
(set-process-filter p t)
(accept-process-output p)
(delete-process p)
(delete-process p)
(process-status p)
(process-live-p p)
(process-exit-status p)
(process-list)
(process-send-eof p)

; Killing a buffer deletes its processes first.
(setq q (start-process "q" "log" "cat"))
(set-process-sentinel q 'note-sentinel)
(kill-buffer "log")
(process-buffer q)
