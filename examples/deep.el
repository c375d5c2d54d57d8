; Handlers nest: each filter here starts a process and waits for it inside, so that one's filter is
; entered one level deeper. Where sixteen handlers are running no further wait is allowed.

(defhandler deeper (process text)
  (setq next (start-process "next" nil "echo" "more"))
  (set-process-filter next 'deeper)
  (accept-process-output next nil t))

(setq next (start-process "next" nil "echo" "more"))
(set-process-filter next 'deeper)
(accept-process-output next nil t)
