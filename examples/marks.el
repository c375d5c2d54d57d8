; Markers and overlays move with the text.

(insert "one two three")
(setq stays (copy-marker 5))
(setq goes (copy-marker 5 t))
(setq word (make-overlay 5 8))
(setq open (make-overlay 5 8 nil nil t))
(overlay-put word 'face 'bold)
(overlay-put open 'face 'italic)

; A text put in at a marker moves the one that goes behind insertions. At the start of both
; overlays it comes to lie in them; at their end only in the one that advances there.
(goto-char 5)
(insert "big ")
(marker-position stays)
(marker-position goes)
(goto-char 12)
(insert "!")
(overlay-end word)
(overlay-end open)
(overlays-at 6)
(next-overlay-change 1)

; The overlay that ends first wins, until the other one gets a higher priority.
(get-char-property 6 'face)
(get-char-property 12 'face)
(overlay-put open 'priority 1)
(get-char-property 6 'face)

; A deletion takes places inside it to its start. An overlay that is empty then may evaporate.
(overlay-put word 'evaporate t)
(delete-region 5 12)
(overlay-buffer word)
(save-excursion
  (goto-char 1)
  (insert-before-markers "> "))
(point)
