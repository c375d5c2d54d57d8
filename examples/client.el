; A language client. The server is a child that reads lines from its pipe and answers each with a line.
; A function behind each change tells it what came; its answers mark a word of the source, or clear the mark.
; 119 is the code of w, as in warning, and 111 that of o, as in ok.

(defhandler tell (from to length)
  (setq words (buffer-substring-no-properties from to))
  (process-send-string server words)
  (process-send-string server "\n"))

(defhandler hear (process text)
  (save-current-buffer
    (setq pane (process-buffer process))
    (set-buffer pane)
    (erase-buffer)
    (insert text)
    (setq letter (char-after 1)))
  (when-eq letter 119
    (overlay-put word 'face 'warning)
    (overlay-put word 'help text))
  (when-eq letter 111
    (overlay-put word 'face nil)
    (overlay-put word 'help nil)))

(setq server (start-process "server" "*server*" "sh" "-c" "while read -r line; do case $line in *teh*) echo 'warning: did you mean the?';; *) echo ok;; esac; done"))
(set-process-filter server 'hear)
(add-hook 'after-change-functions 'tell)

; The overlay grows with what is put in at its end.
(insert "let teh = 1;")
(setq word (make-overlay 5 8 nil nil t))
(accept-process-output server)
(get-char-property 6 'help)

; The word is put right by two changes. The server is told of both, and answers both.
(delete-region 6 8)
(accept-process-output server)
(goto-char 6)
(insert "he")
(accept-process-output server)
(overlay-properties word)

; Its input closed, the server ends by itself.
(process-send-eof server)
(accept-process-output server)
