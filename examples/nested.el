; A handler may wait itself, and what it waits for enters handlers inside it. Here the filter of one
; process asks another one, and goes on when that has answered.

(defhandler ask (process text)
  (process-send-string helper text)
  (accept-process-output helper))

(defhandler hear (process text)
  (set-buffer answers)
  (insert text))

(setq answers (get-buffer-create "*answers*"))
(setq helper (start-process "helper" nil "cat"))
(set-process-filter helper 'hear)
(setq p (start-process "p" nil "sh" "-c" "printf 'question\\n'"))
(set-process-filter p 'ask)
(accept-process-output p)

; This wait is for `p` alone: it would else ask the helper too, which says nothing any more.
(accept-process-output p nil t)
(process-send-eof helper)
(accept-process-output helper)
