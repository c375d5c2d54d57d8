; A change that is looked through, as a person would see it: the word `view` writes it so.
; Lines that were taken out or put in have a mark in the margin, the string of an overlay. Lines that are the same are
; folded: an overlay hides them, and its string stands in their place. On top stands a bar, the string of an empty overlay.
; It moves on with what the tests say.

(defhandler move-bar (process text)
  (overlay-put bar 'before-string text))

(setq bar (make-overlay 1 1))

(insert "  fn greet(name: &str) {\n")
(setq from (point))
(insert "      let hour = now();\n      let word = word_for(hour);\n")
(setq to (point))
(setq fold (make-overlay from to))
(overlay-put fold 'invisible t)
(overlay-put fold 'before-string "  ... 2 lines\n")

(setq from (point))
(insert "    say(\"Hello\");\n")
(setq to (point))
(setq old (make-overlay from to))
(overlay-put old 'before-string "- ")

(setq from (point))
(insert "    say(word, name);\n")
(setq to (point))
(setq new (make-overlay from to))
(overlay-put new 'before-string "+ ")

(insert "  }\n")

; The tests write once, are told to go on, and write once more.
(setq tests (start-process "tests" nil "sh" "-c"
  "printf '[#####-----] 5 of 10 tests\\n'; read go; printf '[##########] 10 of 10 tests\\n'"))
(set-process-filter tests 'move-bar)
(accept-process-output tests)
(process-send-string tests "go\n")
(accept-process-output tests)
(accept-process-output tests)
