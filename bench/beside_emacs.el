;;; beside_emacs.el --- a script of this editor, run by GNU Emacs  -*- lexical-binding: t; -*-

;; It needs GNU Emacs 28 or later. `bench/beside_emacs.sh' calls it so:
;;
;;     emacs -Q --batch -l beside_emacs.el -f beside-emacs SCRIPT OUTPUT
;;
;; It does the forms of SCRIPT by Emacs's own functions, and writes to OUTPUT the lines that docs/CALLS.md tells of:
;; replies, refusals, entries and exits, kills, and the dump. So `diff' compares them with what the program writes.
;; docs/BESIDE_EMACS.md says on which scripts it was tried. Where lines differ, look here first.
;;
;; Emacs itself does what this file compares: texts, positions, markers, narrowing, what an insertion inherits, changes
;; and searches of properties, overlays, undo records and undoing, the arguments of hook functions, decoding.
;;
;; Differences that docs/EMACS.md tells are masked. These are done here by the kernel's rule and not left to Emacs:
;; - the kinds of arguments, and the order of refusals; names of buffers as buffers, markers as numbers, empty regions
;;   out of range, limits behind the accessible portion, ends of overlays in either order, numbers for `insert';
;; - several strings of one insertion are one change, and so are all groups of an `undo-more', which is refused before
;;   anything is undone;
;; - what `save-excursion' and `save-restriction' keep stays at insertions before markers;
;; - an inserted character's own value wins over an inherited one, and no stickiness is inherited; what else it
;;   inherits says Emacs, of a copy of the accessible text around point as it is before functions run;
;; - what is read-only bars a change before its size does, and not where nothing would change; whether it bars says
;;   Emacs, of a copy of the accessible text that counts;
;; - `erase-buffer' shows functions before the change the narrowing; a buffer put into itself keeps its properties;
;; - nil as a property's value, values compared by what they hold, `set-text-properties' that changes nothing;
;; - undo records: no point of an insertion, no end of an overlay, one record for insertions that follow one another,
;;   and of a change of properties one for each stretch of one value, one property after the other, also where undoing
;;   makes these changes; the old values that `set-text-properties' may lose;
;; - hook functions are entered from a list of this file: one that ends by a fault empties it, and the change goes on;
;;   what was current is put back, and a change whose buffer is gone is refused; where functions before a change have
;;   changed its text or narrowed it away, the change is begun again at its ends as they have moved, which stay where
;;   text comes in at them;
;; - names of buffers and processes, which buffer is current behind `kill-buffer', recording in each new buffer;
;; - the whole order of waits: Emacs reads and decodes, and the pieces are handed over in the kernel's rounds;
;; - where hook functions see point and put it at an insertion of output, and that the mark is set before those after it;
;; - the default filter and sentinel, what a sentinel is told, the shipped handlers, nesting, pipes for children, their
;;   standard error (dropped here), sending to an input that was closed.
;;
;; Not masked, so a difference may show: bytes of codes above 10FFFF, and bytes above 7F that finish no character, in
;; what a child writes; carriage returns in its output, and what came before its coding was set; a child that closes
;; its output and lives on; how many objects, records and bytes there may be; properties to which Emacs gives a meaning,
;; as `category' and `modification-hooks'.
;; Numbers of exchanges aren't compared, and `exchanges-spent' never comes. A script that is none isn't told as such.

(require 'cl-lib)

;; FAULTS
(defconst beside-faults
  [nil args-out-of-range wrong-type-argument void-variable no-such-buffer buffer-killed no-further-undo undo-outside
       undo-disabled no-such-process process-ended broken-pipe spawn-failed nesting exchanges-spent buffer-full
       too-many buffer-read-only text-read-only coding-fixed])

(define-error 'beside-refused "A call is refused; with the number of its fault")
(define-error 'beside-told "A refusal whose line is written")
(define-error 'beside-moved "Functions before a change have changed its text; with the ends that it has by then")

(defun beside-refuse (number)
  (signal 'beside-refused (list number)))

(defun beside-fault (err)
  "The number of the fault that the error ERR is; an error that is none goes on outwards."
  (let ((text (error-message-string err)))
    (cond ((eq (car err) 'beside-refused) (cadr err))
          ((eq (car err) 'args-out-of-range) 1)
          ((eq (car err) 'wrong-type-argument) 2)
          ((eq (car err) 'void-variable) 3)
          ((eq (car err) 'file-missing) 12)
          ((eq (car err) 'excessive-lisp-nesting) 13)
          ((eq (car err) 'buffer-read-only) 17)
          ((eq (car err) 'text-read-only) 18)
          ((string-match-p "No buffer named" text) 4)
          ((string-match-p "deleted buffer" text) 5)
          ((string-match-p "No further undo information" text) 6)
          ((string-match-p "outside visible portion" text) 7)
          ((string-match-p "No undo information" text) 8)
          ((string-match-p "Process .* does not exist" text) 9)
          ((string-match-p "not running" text) 10)
          ((string-match-p "no longer connected\\|roken pipe" text) 11)
          ((string-match-p "Maximum buffer size" text) 15)
          (t (signal (car err) (cdr err))))))

;; STATE: each list has its objects by number, the first one first
(defvar beside-lines nil "The lines so far, the newest first.")
(defvar beside-depth 0)
(defvar beside-scope nil "The parameters of the handler that runs.")
(defvar beside-registers nil)
(defvar beside-handlers nil "Entries (NAME PARAMETERS FORM ...).")
(defvar beside-names (make-hash-table :test 'eq) "The number of each symbol.")
(defvar beside-values (make-hash-table :test 'equal) "One object for all property values that are equal.")
(defvar beside-buffers nil)
(defvar beside-markers nil)
(defvar beside-overlays nil)
(defvar beside-processes nil)
(defvar beside-lifted nil "Whether a block says that nothing is read-only.")
(defvar beside-kept nil "Markers at the points and beginnings that blocks keep.")
(defvar beside-bounds nil "Two ends that hook functions see instead, and whether those behind the change see them too.")
(defvar beside-begun nil "What notes the undo records before the change under way.")
(defvar beside-changed nil "What puts right the undo records of the change under way, until that is done.")
(defvar beside-still nil "What puts back the places that stay at the insertion before markers under way, until that is done.")
(defvar beside-point nil "Where hook functions at an insertion of output see point, and put it: a marker.")
(defvar-local beside-before nil)
(defvar-local beside-after nil)
(defvar-local beside-pending t "The undo records that are pending; t where there are none.")

(cl-defstruct beside-process
  name child buffer mark filter sentinel (status 'run) exit pieces ended drained closed (listed t) heard
  (coding 'utf-8-unix))

;; LINES
(defun beside-line (depth &rest words)
  (push (concat (make-string (* 2 depth) ?\s) (mapconcat #'identity words " ") "\n") beside-lines))

(defun beside-char (c)
  (cond ((or (= c ?\") (= c ?\\)) (string ?\\ c))
        ((= c ?\n) "\\n")
        ((= c ?\t) "\\t")
        ((or (< c 32) (= c 127)) (format "\\%03o" c))
        ((> c #x3fff7f) (format "\\%03o" (- c #x3fff00)))
        (t (string c))))

(defun beside-text (string)
  (mapconcat #'beside-char (string-to-multibyte string) ""))

(defun beside-number (name)
  (gethash name beside-names most-positive-fixnum))

(defun beside-set (plist)
  "The pairs of PLIST by rising number of their names, without those of nil."
  (let ((pairs nil))
    (while plist
      (when (cadr plist) (push (cons (car plist) (cadr plist)) pairs))
      (setq plist (cddr plist)))
    (sort pairs (lambda (a b) (< (beside-number (car a)) (beside-number (car b)))))))

(defun beside-flat (set)
  (apply #'append (mapcar (lambda (pair) (list (car pair) (cdr pair))) set)))

(defun beside-shown-set (set)
  (beside-shown (beside-flat set)))

(defun beside-shown-string (string)
  (let ((quoted (concat "\"" (beside-text string) "\"")) (i 0) (n (length string)) (words nil))
    (while (< i n)
      (let ((set (beside-set (text-properties-at i string))) (j (1+ i)))
        (while (and (< j n) (equal set (beside-set (text-properties-at j string)))) (setq j (1+ j)))
        (when set (push (format "%d %d %s" i j (beside-shown-set set)) words))
        (setq i j)))
    (if words (concat "#(" quoted " " (mapconcat #'identity (nreverse words) " ") ")") quoted)))

(defun beside-shown-list (list)
  (let ((words nil))
    (while (consp list)
      (push (beside-shown (car list)) words)
      (setq list (cdr list)))
    (when list
      (push "." words)
      (push (beside-shown list) words))
    (concat "(" (mapconcat #'identity (nreverse words) " ") ")")))

(defun beside-shown-buffer (buffer)
  (if (buffer-live-p buffer) (concat "#<buffer " (beside-text (buffer-name buffer)) ">") "#<killed buffer>"))

(defun beside-shown-marker (marker)
  (concat "#<marker " (if (marker-insertion-type marker) "(moves after insertion) " "")
          (if (marker-buffer marker)
              (format "at %d in %s>" (marker-position marker) (beside-text (buffer-name (marker-buffer marker))))
            "in no buffer>")))

(defun beside-shown-overlay (overlay)
  (if (overlay-buffer overlay)
      (format "#<overlay from %d to %d in %s>" (overlay-start overlay) (overlay-end overlay)
              (beside-text (buffer-name (overlay-buffer overlay))))
    "#<overlay in no buffer>"))

(defun beside-shown (value)
  (cond ((null value) "nil")
        ((symbolp value) (symbol-name value))
        ((integerp value) (number-to-string value))
        ((stringp value) (beside-shown-string value))
        ((consp value) (beside-shown-list value))
        ((bufferp value) (beside-shown-buffer value))
        ((markerp value) (beside-shown-marker value))
        ((overlayp value) (beside-shown-overlay value))
        ((beside-process-p value) (concat "#<process " (beside-text (beside-process-name value)) ">"))))

(defun beside-telling (work)
  "What WORK answers. Where it is refused the line is written, and `beside-told' goes on outwards."
  (condition-case err (funcall work)
    (beside-told (signal 'beside-told nil))
    (error (let ((number (beside-fault err)))
             (beside-line beside-depth "!" (number-to-string number) (symbol-name (aref beside-faults number)))
             (signal 'beside-told nil)))))

;; NAMES, numbered in the order of their first place
(defconst beside-first-names
  '(front-sticky rear-nonsticky evaporate priority before-change-functions after-change-functions run exit signal failed
    read-only invisible before-string after-string utf-8-unix utf-8-dos latin-1-unix))

(defconst beside-shipped '(insert-filter drop-filter note-sentinel))

(defun beside-note (datum)
  (cond ((consp datum) (mapc #'beside-note datum))
        ((and datum (symbolp datum) (not (eq datum t)) (not (gethash datum beside-names)))
         (puthash datum (hash-table-count beside-names) beside-names))))

(defun beside-note-atom (atom)
  (cond ((eq (car-safe atom) 'quote) (beside-note (cadr atom)))
        ((stringp atom)
         (let ((i 0))
           (while (< i (length atom))
             (beside-note (text-properties-at i atom))
             (setq i (or (next-property-change i atom) (length atom))))))
        (t (beside-note atom))))

(defun beside-note-form (form)
  (pcase (car form)
    ('defhandler
     (beside-note (nth 1 form))
     (beside-note (nth 2 form))
     (mapc #'beside-note-form (nthcdr 3 form)))
    ('setq
     (beside-note (nth 1 form))
     (beside-note-form (nth 2 form)))
    ('when-eq
     (beside-note-atom (nth 1 form))
     (beside-note-atom (nth 2 form))
     (mapc #'beside-note-form (nthcdr 3 form)))
    ((or 'save-excursion 'save-restriction 'save-current-buffer 'inhibit-hooks 'inhibit-read-only)
     (mapc #'beside-note-form (cdr form)))
    (_ (mapc #'beside-note-atom (cdr form)))))

;; VALUES
(defun beside-value (value)
  "VALUE as a property's value: without properties, and the same object as all that are equal."
  (let ((plain (if (stringp value) (string-to-multibyte (substring-no-properties value)) value)))
    (and plain (or (gethash plain beside-values) (puthash plain plain beside-values)))))

(defun beside-plist (plist)
  (let ((out nil))
    (while plist
      (push (car plist) out)
      (push (beside-value (cadr plist)) out)
      (setq plist (cddr plist)))
    (nreverse out)))

(defun beside-literal (string)
  "A string of the script, with its properties as sets."
  (let ((out (string-to-multibyte (substring-no-properties string))))
    (dotimes (i (length out))
      (set-text-properties i (1+ i) (beside-flat (beside-set (beside-plist (text-properties-at i string)))) out))
    out))

(defun beside-evaluate (atom)
  (cond ((stringp atom) (beside-literal atom))
        ((eq (car-safe atom) 'quote) (cadr atom))
        ((or (null atom) (eq atom t) (integerp atom)) atom)
        (t (cdr (or (assq atom beside-scope) (assq atom beside-registers) (beside-refuse 3))))))

(defun beside-evaluated (atoms)
  (beside-telling (lambda () (mapcar #'beside-evaluate atoms))))

(defun beside-equal (a b)
  (or (eq a b)
      (and (not (markerp a)) (not (overlayp a)) (not (beside-process-p a)) (equal a b))))

(defun beside-assign (name value)
  (let ((bound (or (assq name beside-scope) (assq name beside-registers))))
    (if bound (setcdr bound value) (push (cons name value) beside-registers))))

;; FORMS
(defun beside-forms (forms)
  (mapc #'beside-form forms))

(defun beside-form (form)
  (pcase (car form)
    ('setq (let ((call (nth 2 form))) (beside-assign (nth 1 form) (beside-call (car call) (cdr call)))))
    ('when-eq (let ((two (beside-evaluated (list (nth 1 form) (nth 2 form)))))
                (when (beside-equal (car two) (cadr two)) (beside-forms (nthcdr 3 form)))))
    ('save-excursion (beside-excursion (cdr form)))
    ('save-restriction (beside-restriction (cdr form)))
    ('save-current-buffer (save-current-buffer (beside-forms (cdr form))))
    ('inhibit-hooks (let ((inhibit-modification-hooks t)) (beside-forms (cdr form))))
    ('inhibit-read-only (let ((beside-lifted t)) (beside-forms (cdr form))))
    (_ (beside-call (car form) (cdr form)))))

(defun beside-excursion (forms)
  (let ((buffer (current-buffer)) (place (point-marker)))
    (push place beside-kept)
    (unwind-protect (beside-forms forms)
      (setq beside-kept (delq place beside-kept))
      (when (buffer-live-p buffer)
        (set-buffer buffer)
        (goto-char place))
      (set-marker place nil))))

(defun beside-restriction (forms)
  (let ((buffer (current-buffer)) (narrowed (buffer-narrowed-p))
        (from (copy-marker (point-min))) (to (copy-marker (point-max) t)))
    (push from beside-kept)
    (unwind-protect (beside-forms forms)
      (setq beside-kept (delq from beside-kept))
      (when (buffer-live-p buffer)
        (with-current-buffer buffer
          (if narrowed (narrow-to-region from to) (widen))))
      (set-marker from nil)
      (set-marker to nil))))

(defun beside-call (word atoms)
  (beside-apply word (beside-evaluated atoms)))

(defun beside-apply (word args)
  (let ((value (beside-telling (lambda () (beside-do word args)))))
    (beside-line beside-depth "=" (beside-shown value))
    value))

;; ARGUMENTS: of each call the kinds of its arguments; what stands behind &rest comes any number of times
(defconst beside-calls
  '((set-buffer buffer) (get-buffer got) (get-buffer-create got) (generate-new-buffer name) (rename-buffer name)
    (kill-buffer here) (buffer-live-p any) (buffer-name named) (buffer-modified-p here) (set-buffer-modified-p any)
    (buffer-read-only-p here) (set-buffer-read-only any) (buffer-size here) (goto-char pos) (char-after limit) (buffer-substring acc acc)
    (buffer-substring-no-properties acc acc) (insert &rest string) (insert-and-inherit &rest string)
    (insert-before-markers &rest string) (insert-before-markers-and-inherit &rest string)
    (insert-buffer-substring buffer limit limit) (delete-region acc acc) (delete-and-extract-region acc acc)
    (narrow-to-region whole whole) (copy-marker place any) (set-marker marker place here) (marker-position marker)
    (marker-buffer marker) (marker-insertion-type marker) (set-marker-insertion-type marker any)
    (get-text-property acc prop) (text-properties-at acc) (put-text-property acc acc prop value)
    (add-text-properties acc acc plist) (remove-text-properties acc acc plist) (set-text-properties acc acc plist)
    (next-property-change acc limit) (next-single-property-change acc prop limit) (previous-property-change acc limit)
    (previous-single-property-change acc prop limit) (text-property-any acc acc prop value)
    (text-property-not-all acc acc prop value) (make-overlay pos pos here any any) (overlay-start overlay)
    (overlay-end overlay) (overlay-buffer overlay) (overlay-put overlay prop value) (overlay-get overlay prop)
    (overlay-properties overlay) (move-overlay overlay pos pos here) (delete-overlay overlay) (overlays-at pos)
    (overlays-in pos pos) (get-char-property acc prop) (next-overlay-change pos) (previous-overlay-change pos)
    (add-hook hook function) (remove-hook hook function) (undo-more number)
    (start-process name home program &rest word) (get-process process) (process-name process) (process-status process)
    (process-buffer process) (process-mark process) (process-live-p process) (process-exit-status process)
    (process-filter process) (process-sentinel process) (set-process-filter process filter)
    (set-process-sentinel process handler) (set-process-buffer process here) (process-send-string process string)
    (process-send-eof process) (delete-process process) (accept-process-output target rounds any)
    (process-coding-system process) (set-process-coding-system process coding)))

(defun beside-pairs (kinds args)
  "Each of KINDS with its argument, which is nil where it was left out."
  (let ((pairs nil))
    (while (and kinds (not (eq (car kinds) '&rest)))
      (push (cons (pop kinds) (pop args)) pairs))
    (dolist (arg args) (push (cons (cadr kinds) arg) pairs))
    (nreverse pairs)))

(defun beside-is-symbol (v)
  (and v (symbolp v) (not (eq v t))))

(defun beside-is-value (v)
  (or (null v) (eq v t) (integerp v) (stringp v) (beside-is-symbol v)
      (and (consp v) (cl-every #'beside-is-symbol v))))

(defun beside-is-plist (v)
  (let ((names nil) (good (listp v)))
    (while (and good v)
      (setq good (and (beside-is-symbol (car v)) (not (memq (car v) names)) (consp (cdr v)) (beside-is-value (cadr v))))
      (push (car v) names)
      (setq v (cddr v)))
    good))

(defun beside-is-word (v)
  (and (stringp v) (not (string-match-p "[\0\x3fff80-\x3fffff]" (string-to-multibyte v)))))

(defun beside-handler-test (kind v)
  (when (and (memq kind '(handler function filter)) (beside-is-symbol v)
             (not (assq v beside-handlers)) (not (memq v beside-shipped)))
    (beside-refuse 3)))

(defun beside-kind-test (kind v)
  (unless (pcase kind
            ((or 'pos 'acc 'whole) (or (integerp v) (markerp v)))
            ((or 'limit 'place) (or (null v) (integerp v) (markerp v)))
            ((or 'buffer 'got) (or (bufferp v) (stringp v)))
            ('here (or (null v) (bufferp v) (stringp v)))
            ('named (or (null v) (bufferp v)))
            ('home (or (null v) (bufferp v) (and (stringp v) (> (length v) 0))))
            ('string (stringp v))
            ('word (beside-is-word v))
            ('program (and (beside-is-word v) (> (length v) 0)))
            ('name (and (stringp v) (> (length v) 0)))
            ('prop (beside-is-symbol v))
            ('value (beside-is-value v))
            ('plist (beside-is-plist v))
            ('marker (markerp v))
            ('overlay (overlayp v))
            ('number (integerp v))
            ('rounds (or (null v) (integerp v)))
            ('process (or (beside-process-p v) (stringp v)))
            ('target (or (null v) (beside-process-p v) (stringp v)))
            ('handler (or (null v) (beside-is-symbol v)))
            ('function (beside-is-symbol v))
            ('filter (symbolp v))
            ('hook (memq v '(before-change-functions after-change-functions)))
            ('coding (memq v '(utf-8-unix utf-8-dos latin-1-unix)))
            (_ t))
    (beside-refuse 2)))

(defun beside-there-test (kind v)
  (when (and (memq kind '(buffer here home)) (bufferp v) (not (buffer-live-p v))) (beside-refuse 5))
  (when (and (memq kind '(buffer here)) (stringp v) (not (get-buffer v))) (beside-refuse 4))
  (when (and (memq kind '(process target)) (stringp v) (not (beside-listed v))) (beside-refuse 9)))

(defun beside-range-test (kind v)
  (when (and (memq kind '(pos acc whole limit)) (markerp v) (not (marker-position v))) (beside-refuse 1))
  (when (and (eq kind 'acc) (not (<= (point-min) v (point-max)))) (beside-refuse 1))
  (when (and (eq kind 'whole) (not (<= 1 v (1+ (buffer-size))))) (beside-refuse 1)))

(defun beside-plain (kind v)
  "The argument V as Emacs takes it."
  (cond ((and (memq kind '(pos acc whole limit place)) (markerp v)) (marker-position v))
        ((and (memq kind '(buffer here)) (stringp v)) (get-buffer v))
        ((and (memq kind '(process target)) (stringp v)) (beside-listed v))
        ((eq kind 'value) (beside-value v))
        ((eq kind 'plist) (beside-plist v))
        (t v)))

(defun beside-do (word args)
  "The answer of a call: its tests class by class, and then what it does."
  (if (and (eq word 'get-process) (stringp (car args)))
      (beside-listed (car args))
    (let ((pairs (beside-pairs (cdr (assq word beside-calls)) args)))
      (dolist (test '(beside-handler-test beside-kind-test beside-there-test beside-range-test))
        (dolist (pair pairs) (funcall test (car pair) (cdr pair))))
      (beside-made word (mapcar (lambda (pair) (beside-plain (car pair) (cdr pair))) pairs) args))))

;; BUFFERS
(defun beside-live-buffers ()
  (cl-remove-if-not #'buffer-live-p beside-buffers))

(defun beside-short (name)
  (when (> (length name) 256) (beside-refuse 16)))

(defun beside-watch ()
  "Have Emacs tell of each change of the current buffer."
  (add-hook 'before-change-functions #'beside-before-change nil t)
  (add-hook 'after-change-functions #'beside-after-change nil t))

(defun beside-take-buffer (buffer)
  "BUFFER with its hooks, recorded and under the next number."
  (with-current-buffer buffer
    (buffer-enable-undo)
    (beside-watch))
  (setq beside-buffers (append beside-buffers (list buffer)))
  buffer)

(defun beside-new-buffer (name)
  (beside-short name)
  (beside-take-buffer (get-buffer-create name)))

(defun beside-free-name (name own)
  "NAME, or the first of NAME<2>, NAME<3> .. that no live buffer but OWN has."
  (let ((free name) (n 1))
    (while (and (get-buffer free) (not (eq (get-buffer free) own)))
      (setq n (1+ n) free (format "%s<%d>" name n)))
    free))

(defun beside-rename (name)
  (beside-short name)
  (rename-buffer (beside-free-name name (current-buffer)))
  (buffer-name))

(defun beside-kill (buffer)
  (let ((own (cl-remove-if-not (lambda (p) (and (eq (beside-process-status p) 'run)
                                                (eq (beside-process-buffer p) buffer)))
                               beside-processes)))
    (when (and own (>= beside-depth 16)) (beside-refuse 13))
    (mapc #'beside-delete-process own)
    (when (buffer-live-p buffer)
      (let ((was-current (eq buffer (current-buffer))) (kill-buffer-query-functions nil))
        (kill-buffer buffer)
        (when was-current
          (set-buffer (or (car (beside-live-buffers)) (beside-new-buffer "*scratch*")))))
      t)))

;; UNDO RECORDS
(defun beside-record (record inserting)
  "RECORD as this editor has it, in a list: an empty one where it has none."
  (cond ((null record) (list nil))
        ((integerp record) nil)
        ((equal record '(apply cdr nil)) nil)
        ((and (stringp (car record)) (integerp (cdr record))) (list (cons (car record) (abs (cdr record)))))
        ((markerp (car record)) (and (memq (car record) beside-markers) (list record)))
        ((null (car record)) (and (not inserting) (list record)))
        (t (list record))))

(defun beside-merged (records)
  "RECORDS, the newest of which goes on with the one before it where both are insertions side by side."
  (let ((new (car records)) (old (cadr records)))
    (if (and (integerp (car-safe new)) (integerp (car-safe old)) (eql (cdr old) (car new)))
        (cons (cons (car old) (cdr new)) (cddr records))
      records)))

(defun beside-marker-number (record)
  (cl-position (car record) beside-markers :test #'eq))

(defun beside-in-order (records)
  "RECORDS with those of markers that stand together by falling number."
  (let ((out nil))
    (while records
      (let ((run nil))
        (while (markerp (car-safe (car records)))
          (push (pop records) run))
        (setq run (sort run (lambda (a b) (> (beside-marker-number a) (beside-marker-number b)))))
        (dolist (record run) (push record out))
        (when records (push (pop records) out))))
    (nreverse out)))

(defun beside-by-property (records)
  "RECORDS of one change of properties: one property after the other, and one record for each stretch of one value."
  (let ((out nil))
    (dolist (record (sort records (lambda (a b)
                                    (let ((m (beside-number (nth 1 a))) (n (beside-number (nth 1 b))))
                                      (or (< m n) (and (= m n) (< (nth 3 a) (nth 3 b))))))))
      (pcase-let ((`(nil ,name ,value ,from . ,to) record) (last (car out)))
        (if (and (eq name (nth 1 last)) (equal value (nth 2 last)) (eql from (nthcdr 4 last)))
            (setcar out (cl-list* nil name value (nth 3 last) to))
          (push record out))))
    (nreverse out)))

(defun beside-settle (old kind point)
  "Give the undo records in front of OLD this editor's form, with POINT as the point that a deletion keeps.
KIND is `text' where text was put in, and `properties' where some were changed."
  (unless (eq buffer-undo-list t)
    (let ((new nil) (rest buffer-undo-list) (inserting (eq kind 'text)))
      (while (and rest (not (eq rest old)))
        (dolist (record (beside-record (car rest) inserting)) (push record new))
        (setq rest (cdr rest)))
      ;; NEW has the oldest one first
      (when (eq kind 'properties)
        (let ((first (lambda (record) (eq (car record) t))))
          (setq new (append (cl-remove-if-not first new) (beside-by-property (cl-remove-if first new))))))
      (when (and point new)
        (if (eq (car-safe (car new)) t)
            (setcdr new (cons (list 'apply 'goto-char point) (cdr new)))
          (push (list 'apply 'goto-char point) new)))
      (let ((all (nconc (beside-in-order (nreverse new)) rest)))
        (setq buffer-undo-list (if inserting (beside-merged all) all))))))

(defun beside-change (kind from to work)
  "Do WORK, a change of the current buffer between FROM and TO. Its undo records are put right before functions after the
change run, if any do, and those of functions before it are no part of them."
  (let* ((buffer (current-buffer)) (tick nil) (old nil) (point nil)
         (beside-begun (lambda (start)
                         (setq tick (buffer-modified-tick) old buffer-undo-list
                               point (and (eq kind 'deletion) (beside-kept-point start)))))
         (beside-changed (lambda ()
                           (unless (eq old t) (beside-settle old kind point))
                           (unless (= tick (buffer-modified-tick)) (setq beside-pending t)))))
    (funcall beside-begun from)
    (unwind-protect
        (prog1 (condition-case moved (funcall work from to)
                 (beside-moved (beside-again (nth 1 moved) (nth 2 moved) work)))
          (when (and beside-changed (buffer-live-p buffer) (eq buffer (current-buffer)))
            (funcall beside-changed)))
      ;; where a function before the change ends it so, or has killed its buffer, Emacs takes the hook off the current one
      (beside-watch))))

(defun beside-again (from to work)
  "Do WORK between FROM and TO, its ends behind functions before it, and enter the functions after it."
  (let ((inhibit-modification-hooks t) (size (buffer-size)))
    (prog1 (if (<= (point-min) from to (point-max))
               (funcall work from to)
             (save-restriction
               (widen)
               (funcall work from to)))
      (beside-after-change from (+ to (- (buffer-size) size)) (- to from)))))

(defun beside-kept-point (start)
  "Point, where a deletion from START keeps it: at the beginning of a group, and elsewhere than at START."
  (and (listp buffer-undo-list) (null (car buffer-undo-list)) (/= (point) start) (point)))

(defun beside-fit (n)
  "Refuse to make a string of N characters from a buffer where that is too long."
  (when (> n 1048576) (beside-refuse 16)))

(defun beside-room (n)
  "Refuse to put in N characters where the text would grow too long."
  (when (and (> n 0)
             (or (> (+ (buffer-size) n) 4194304)
                 (> (apply #'+ n (mapcar #'buffer-size (beside-live-buffers))) 16777216)))
    (beside-refuse 15)))

(defun beside-own (start text)
  "Give the inserted TEXT at START its own values back, and take away a stickiness that it inherited."
  (dotimes (i (length text))
    (let ((plist (text-properties-at i text)) (at (+ start i)))
      (dolist (name '(front-sticky rear-nonsticky))
        (unless (plist-member plist name) (remove-text-properties at (1+ at) (list name nil))))
      (add-text-properties at (1+ at) plist))))

(defun beside-around (work)
  "Do WORK in a copy of what stands around point in the accessible portion, without stickiness that is no list of names."
  (let* ((at (point)) (from (max (point-min) (1- at))) (around (buffer-substring from (min (point-max) (1+ at)))))
    (with-temp-buffer
      (insert around)
      (dolist (i (number-sequence 1 (1- (point-max))))
        (dolist (name '(front-sticky rear-nonsticky))
          (let ((value (get-text-property i name)))
            (unless (or (eq value t) (listp value)) (remove-text-properties i (1+ i) (list name nil))))))
      (goto-char (1+ (- at from)))
      (funcall work))))

(defun beside-inheriting (text)
  "TEXT with what it inherits at point, as Emacs has it in a copy of the text around."
  (beside-around
   (lambda ()
     (let ((start (point)))
       (insert-and-inherit text)
       (beside-own start text)
       (buffer-substring start (point))))))

;; WHAT IS READ-ONLY. Nothing is while Emacs makes a change; what bars one it says before, of a copy of the text that counts.
(defun beside-writable ()
  "Refuse to change the current buffer where it is read-only."
  (let ((inhibit-read-only nil)) (barf-if-buffer-read-only)))

(defun beside-tried (text work)
  "Refuse what Emacs refuses of WORK in a buffer of TEXT."
  (with-temp-buffer
    (insert text)
    (let ((inhibit-read-only nil)) (funcall work))))

(defun beside-may-put-in (n)
  "Refuse to put in N characters at point beside read-only text of the accessible portion."
  (unless (or beside-lifted (= n 0))
    (beside-around (lambda () (let ((inhibit-read-only nil)) (insert "x"))))))

(defun beside-may-insert (n)
  (unless (or beside-lifted (= n 0)) (beside-writable))
  (beside-may-put-in n))

(defun beside-may-delete (from to)
  (unless (or beside-lifted (= from to))
    (beside-writable)
    (beside-tried (buffer-substring from to) (lambda () (delete-region 1 (point-max))))))

(defun beside-may-change (from to work)
  "Refuse WORK, which changes properties of the region, where it changes some and something is read-only."
  (unless (or beside-lifted (= from to))
    (let ((text (buffer-substring from to)))
      (when (with-temp-buffer
              (insert text)
              (let ((inhibit-modification-hooks t)) (funcall work 1 (point-max))))
        (beside-writable)
        (beside-tried text (lambda () (put-text-property 1 (point-max) 'beside-tried t)))))))

(defun beside-insert (args function &optional mark)
  "Insert ARGS at point as FUNCTION does, and put MARK behind the text."
  (let ((text (apply #'concat args)))
    (beside-room (length text))
    (when (memq function '(insert-and-inherit insert-before-markers-and-inherit)) (setq text (beside-inheriting text)))
    (beside-change 'text (point) (point)
                   (lambda (from _to)
                     (goto-char from)
                     (if (memq function '(insert insert-and-inherit))
                         (insert text)
                       (beside-put-before text mark)))))
  nil)

(defun beside-put-before (text mark)
  "Insert TEXT before markers at point, where the points that blocks keep stay, and put MARK behind it.
Both are done before functions after the change run."
  (let* ((at (point))
         (still (cl-remove-if-not (lambda (m) (and (eq (marker-buffer m) (current-buffer)) (= m at))) beside-kept))
         (beside-still (lambda ()
                         (dolist (m still) (set-marker m at))
                         (when mark (set-marker mark (+ at (length text)) (current-buffer))))))
    (insert-before-markers text)
    (when beside-still (funcall beside-still))))

(defun beside-insert-part (buffer from to)
  (let ((from (or from (with-current-buffer buffer (point-min))))
        (to (or to (with-current-buffer buffer (point-max)))))
    (with-current-buffer buffer
      (unless (and (<= (point-min) from (point-max)) (<= (point-min) to (point-max))) (beside-refuse 1)))
    (beside-may-insert (abs (- to from)))
    (beside-fit (abs (- to from)))
    (beside-insert (list (with-current-buffer buffer (buffer-substring from to))) #'insert)))

(defun beside-delete (from to function)
  (let ((start (min from to)) (end (max from to)) (text nil) (times 0))
    (beside-may-delete start end)
    (when (eq function #'delete-and-extract-region)
      (beside-fit (- end start))
      (setq text (buffer-substring start end)))
    (let ((answer (beside-change (and (/= from to) 'deletion) start end
                                 (lambda (from to) (setq times (1+ times)) (funcall function from to)))))
      (if (= times 1) answer text))))

(defun beside-erase ()
  (save-restriction
    (widen)
    (beside-may-delete 1 (point-max)))
  (let ((narrowed (list (copy-marker (point-min)) (copy-marker (point-max) t) nil)))
    (beside-change (and (> (buffer-size) 0) 'deletion) 1 (1+ (buffer-size))
                   (lambda (from to)
                     (let ((beside-bounds narrowed))
                       (if (and (= from 1) (= to (1+ (buffer-size))))
                           (erase-buffer)
                         (delete-region from to)))))
    nil))

(defun beside-has-record (n records)
  "Whether the first N groups of RECORDS have a record."
  (let ((found nil))
    (while (and records (> n 0) (not found))
      (if (pop records) (setq found t) (setq n (1- n))))
    found))

(defun beside-try (n records)
  "Refuse to undo N groups of RECORDS where one would reach outside the accessible portion as it is by then."
  (let ((low (point-min)) (high (point-max)))
    (while (and records (> n 0))
      (let* ((record (pop records)) (a (car-safe record)))
        (cond ((null record) (setq n (1- n)))
              ((eq a 'apply) (unless (<= low (nth 2 record) high) (beside-refuse 7)))
              ((integerp a)
               (unless (<= low a (cdr record) high) (beside-refuse 7))
               (setq high (- high (- (cdr record) a))))
              ((stringp a)
               (unless (<= low (abs (cdr record)) high) (beside-refuse 7))
               (setq high (+ high (length a))))
              ((and (consp record) (null a))
               (unless (<= low (nth 3 record) (nthcdr 4 record) high) (beside-refuse 7))))))))

(defun beside-undo (n)
  "Undo N groups of the pending records, with the hooks run once."
  (unless (<= 1 n 65536) (beside-refuse 1))
  (unless beside-lifted (beside-writable))
  (when (eq buffer-undo-list t) (beside-refuse 8))
  (beside-undoable n)
  (let ((size nil)
        (quiet (or inhibit-modification-hooks (not (beside-has-record n beside-pending)))))
    (let ((inhibit-modification-hooks t) (beside-begun nil))
      (unless quiet
        (beside-before-change (point-min) (point-max))
        (beside-undoable n))
      (setq size (- (point-max) (point-min)))
      (let ((pending beside-pending))
        (beside-change nil 1 1 (lambda (_from _to) (setq pending (beside-undo-groups n pending)) (beside-strip)))
        (setq beside-pending (or pending t)))
      (unless quiet (beside-after-change (point-min) (point-max) size)))
    nil))

(defun beside-undo-groups (n records)
  "Undo N groups of RECORDS, whose own records are put right one by one; the records that are left."
  (while (and records (> n 0))
    (let* ((record (pop records)) (kind (car-safe record)) (part (list record)) (old buffer-undo-list))
      (if (null record) (setq n (1- n))
        (when (stringp kind)
          (while (markerp (car-safe (car records))) (push (pop records) part)))
        (primitive-undo 1 (nreverse part))
        (beside-settle old (cond ((stringp kind) 'text) ((and (consp record) (null kind)) 'properties)) nil))))
  records)

(defun beside-undoable (n)
  "Refuse to undo N groups where none is pending, or one reaches outside."
  (when (or (null beside-pending) (eq beside-pending t)) (beside-refuse 6))
  (beside-try n beside-pending))

(defun beside-strip ()
  "Take away the properties whose value is nil, which undoing leaves in Emacs."
  (let ((buffer-undo-list t) (modified (buffer-modified-p)))
    (save-restriction
      (widen)
      (let ((i 1))
        (while (< i (point-max))
          (let ((names nil) (plist (text-properties-at i)))
            (while plist
              (unless (cadr plist) (setq names (cons (car plist) (cons nil names))))
              (setq plist (cddr plist)))
            (when names (remove-text-properties i (1+ i) names)))
          (setq i (1+ i)))))
    (restore-buffer-modified-p modified)))

(defun beside-shown-record (record)
  "RECORD as `buffer-undo-list' shows it."
  (cond ((eq (car-safe record) t) (cons t 0))
        ((eq (car-safe record) 'apply) (nth 2 record))
        (t record)))

;; TEXT PROPERTIES
(defun beside-value-pairs (plist given)
  "The pairs of PLIST that have a value, or those of nil unless GIVEN."
  (let ((out nil))
    (while plist
      (when (eq (not (cadr plist)) (not given)) (setq out (nconc out (list (car plist) (cadr plist)))))
      (setq plist (cddr plist)))
    out))

(defun beside-both (from to new gone)
  "Add NEW and take GONE away, as one change, if it is one."
  (let ((copy (buffer-substring from to)) (n (- to from)))
    (when (or (add-text-properties 0 n new copy) (remove-text-properties 0 n gone copy))
      (let ((quiet inhibit-modification-hooks) (inhibit-modification-hooks t))
        (unless quiet (beside-before-change from to))
        (add-text-properties from to new)
        (remove-text-properties from to gone)
        (unless quiet (beside-after-change from to n)))
      t)))

(defun beside-add (from to plist)
  (let ((new (beside-value-pairs plist t)) (gone (beside-value-pairs plist nil)))
    (and (< from to)
         (cond ((null gone) (add-text-properties from to new))
               ((null new) (remove-text-properties from to gone))
               (t (beside-both from to new gone))))))

(defun beside-part (from to)
  "Have Emacs part its intervals at the ends of the region, as else it may record the values there as nil."
  (let ((buffer-undo-list t) (inhibit-modification-hooks t) (modified (buffer-modified-p)))
    (put-text-property from to 'beside-part t)
    (remove-text-properties from to '(beside-part nil))
    (restore-buffer-modified-p modified)))

(defun beside-replace (from to plist)
  (let* ((set (beside-set plist)) (copy (buffer-substring from to)) (same t))
    (dotimes (i (- to from))
      (unless (equal set (beside-set (text-properties-at i copy))) (setq same nil)))
    (unless same
      (beside-part from to)
      (set-text-properties from to (beside-flat set))
      t)))

(defun beside-properties (from to work)
  "Do WORK on the region by rising ends; whether it changed something."
  (beside-may-change (min from to) (max from to) work)
  (let ((times 0))
    (and (or (beside-change 'properties (min from to) (max from to)
                            (lambda (from to) (setq times (1+ times)) (funcall work from to)))
             (> times 1))
         t)))

(defun beside-up-to (found limit)
  (cond ((null limit) found)
        ((and found (< found limit)) found)
        (t limit)))

(defun beside-down-to (found limit)
  (cond ((null limit) found)
        ((and found (> found limit)) found)
        (t limit)))

;; OVERLAYS
(defun beside-near (position buffer)
  (with-current-buffer buffer (max 1 (min position (1+ (buffer-size))))))

(defun beside-move (overlay a b buffer)
  (let ((home (or buffer (overlay-buffer overlay) (current-buffer))))
    (move-overlay overlay (beside-near a home) (beside-near b home) home)
    overlay))

(defun beside-by-number (overlays)
  (cl-remove-if-not (lambda (o) (memq o overlays)) beside-overlays))

(defun beside-within (a b)
  (beside-by-number
   (if (= a b)
       (append (overlays-at a) (cl-remove-if-not (lambda (o) (= (overlay-start o) (overlay-end o) a)) (overlays-in a a)))
     (overlays-in (min a b) (max a b)))))

(defun beside-char-property (position prop)
  (let ((found (get-char-property-and-overlay position prop)))
    (if (and (= position (point-max)) (null (cdr found))) nil (car found))))

;; HOOKS
(defun beside-in-bounds (bounds work)
  "Do WORK, which enters hook functions, between BOUNDS if there are any; where they move these counts."
  (if bounds
      (let ((buffer (current-buffer)))
        (save-restriction
          (narrow-to-region (car bounds) (cadr bounds))
          (let ((beside-bounds nil)) (beside-at-point work))
          (when (buffer-live-p buffer)
            (set-marker (car bounds) (point-min))
            (set-marker (cadr bounds) (point-max)))))
    (beside-at-point work)))

(defun beside-at-point (work)
  "Do WORK, which enters hook functions, where they see point at an insertion of output."
  (let ((place beside-point) (buffer (current-buffer)) (beside-point nil))
    (when place (goto-char place))
    (funcall work)
    (when (and place (buffer-live-p buffer)) (set-marker place (point) buffer))))

(defun beside-run-hooks (list kind args)
  "Enter the functions of a copy of LIST; one that ends by a fault empties it, and is the last."
  (let ((buffer (current-buffer)) (names (symbol-value list)))
    (while names
      (when (beside-enter kind (pop names) args)
        (setq names nil)
        (when (buffer-live-p buffer) (with-current-buffer buffer (set list nil)))))))

(defun beside-before-change (from to)
  (when beside-before
    (let* ((buffer (current-buffer)) (tick (buffer-modified-tick)) (start (copy-marker from)) (end (copy-marker to))
           (beside-kept (cons start (cons end beside-kept))))
      (beside-in-bounds beside-bounds (lambda () (beside-run-hooks 'beside-before "before" (list from to))))
      (unless (buffer-live-p buffer) (beside-refuse 5))
      (let ((from (marker-position start)) (to (marker-position end)))
        (set-marker start nil)
        (set-marker end nil)
        (when beside-begun
          (funcall beside-begun from)
          (unless (and (= tick (buffer-modified-tick)) (<= (point-min) from to (point-max)))
            (signal 'beside-moved (list from to)))
          (when (= from to) (goto-char from)))))))

(defun beside-after-change (from to length)
  (when beside-changed (funcall beside-changed))
  (setq beside-changed nil)
  (when beside-still (funcall beside-still))
  (setq beside-still nil)
  (when beside-after
    (beside-in-bounds (and (nth 2 beside-bounds) beside-bounds)
                      (lambda () (beside-run-hooks 'beside-after "after" (list from to length))))))

(defun beside-set-hook (hook name adding)
  (let* ((list (if (eq hook 'before-change-functions) 'beside-before 'beside-after)) (names (symbol-value list)))
    (cond ((not adding) (setq names (remq name names)))
          ((memq name names) nil)
          ((>= (length names) 8) (beside-refuse 16))
          (t (setq names (cons name names))))
    (set list names)
    names))

;; HANDLERS
(defun beside-enter (kind handler args)
  "Enter HANDLER, or the default one for nil; whether it ended by a fault."
  (let ((was (current-buffer)) (name (if handler (symbol-name handler) "default")) (faulted nil))
    (beside-line beside-depth ">" kind name (mapconcat #'beside-shown args " "))
    (let ((beside-depth (1+ beside-depth)) (beside-scope nil))
      (condition-case nil (beside-body kind handler args)
        (beside-told (setq faulted t))))
    (when (buffer-live-p was) (set-buffer was))
    (beside-line beside-depth "<" name)
    faulted))

(defun beside-body (kind handler args)
  (let ((definition (assq handler beside-handlers)))
    (cond ((null handler) (beside-default kind (car args) (cadr args)))
          (definition
           (dolist (name (nth 1 definition)) (push (cons name (pop args)) beside-scope))
           (beside-forms (nthcdr 2 definition)))
          ;; a call that is refused ends these, and not by a fault
          ((eq handler 'insert-filter) (ignore-error beside-told (beside-insert-filter (car args) (cadr args))))
          ((eq handler 'note-sentinel) (ignore-error beside-told (beside-note-sentinel (cadr args)))))))

(defun beside-insert-filter (process text)
  (let ((buffer (beside-apply 'process-buffer (list process))))
    (when (bufferp buffer)
      (beside-apply 'set-buffer (list buffer))
      (let* ((x (beside-apply 'point nil))
             (mark (beside-apply 'process-mark (list process)))
             (y (beside-apply 'marker-position (list mark))))
        (when y
          (beside-apply 'goto-char (list mark))
          (beside-apply 'insert (list text))
          (let ((z (beside-apply 'point nil)))
            (beside-apply 'set-marker (list mark z buffer))
            (cond ((< x y) (beside-apply 'goto-char (list x)))
                  ((> x y) (beside-apply 'goto-char (list (+ x (- z y))))))))))))

(defun beside-note-sentinel (text)
  (beside-apply 'set-buffer (list (beside-apply 'get-buffer-create (list "*events*"))))
  (beside-apply 'goto-char (list (beside-apply 'point-max nil)))
  (beside-apply 'insert (list text)))

(defun beside-default (kind process text)
  (let ((buffer (beside-process-buffer process)))
    (when (and buffer (buffer-live-p buffer))
      (set-buffer buffer)
      (beside-output (beside-process-mark process)
                     (if (equal kind "filter") text
                       (concat "\nProcess " (beside-process-name process) " " text))))))

(defun beside-output (mark text)
  "Insert TEXT at MARK before all markers, and let MARK point behind it."
  (let* ((at (if (eq (marker-buffer mark) (current-buffer)) (marker-position mark) (point-max)))
         (was (copy-marker (point)))
         (bounds (unless (<= (point-min) at (point-max))
                   (list (copy-marker (point-min)) (copy-marker (point-max) t) t))))
    (unwind-protect
        (if bounds
            (let ((beside-bounds bounds) (beside-kept (cons (car bounds) beside-kept)))
              (widen)
              (unwind-protect (beside-output-at mark at text was)
                (when (eq (marker-buffer was) (current-buffer)) (narrow-to-region (car bounds) (cadr bounds)))))
          (beside-may-put-in-at at text)
          (beside-output-at mark at text was))
      (when (eq (marker-buffer was) (current-buffer)) (goto-char was))
      (set-marker was nil))))

(defun beside-output-at (mark at text was)
  (goto-char at)
  (let ((beside-point was))
    (beside-telling (lambda () (beside-insert (list text) #'insert-before-markers mark)))))

(defun beside-may-put-in-at (at text)
  (goto-char at)
  (beside-telling (lambda () (beside-may-put-in (length text)))))

;; PROCESSES
(defun beside-listed (name)
  (cl-find-if (lambda (p) (and (beside-process-listed p) (string= (beside-process-name p) name))) beside-processes))

(defun beside-process-free-name (name)
  (let ((free name) (n 0))
    (while (beside-listed free)
      (setq n (1+ n) free (format "%s<%d>" name n)))
    free))

(defun beside-new-marker (marker)
  (setq beside-markers (append beside-markers (list marker)))
  marker)

(defun beside-child (process program arguments)
  "Start PROGRAM with pipes, its standard error dropped; PROCESS gathers what Emacs reads of it."
  (make-process
   :name "child" :buffer nil :connection-type 'pipe :coding 'utf-8-unix :noquery t
   :command (append (list "/bin/sh" "-c" "exec \"$0\" \"$@\" 2> /dev/null" program) arguments)
   :filter (lambda (_child text)
             (setf (beside-process-pieces process) (append (beside-process-pieces process)
                                                           ;; without the charset that Emacs notes of latin-1
                                                           (list (substring-no-properties text)))))
   :sentinel (lambda (child _event)
               (unless (process-live-p child)
                 (setf (beside-process-ended process) (cons (process-status child) (process-exit-status child)))))))

(defun beside-set-coding (process coding)
  "Have Emacs decode the output of PROCESS by CODING, unless some of it was read."
  (when (beside-process-heard process) (beside-refuse 19))
  (set-process-coding-system (beside-process-child process) coding 'utf-8-unix)
  (setf (beside-process-coding process) coding))

(defun beside-start (name home program arguments)
  (beside-short name)
  (when (stringp home) (beside-short home))
  (unless (executable-find program) (beside-refuse 12))
  (let* ((buffer (if (stringp home) (or (get-buffer home) (beside-new-buffer home)) home))
         (process (make-beside-process :name (beside-process-free-name name) :buffer buffer
                                       :mark (beside-new-marker (make-marker)))))
    (when buffer
      (set-marker (beside-process-mark process) (with-current-buffer buffer (point-max)) buffer))
    (setf (beside-process-child process) (beside-child process program arguments))
    (setq beside-processes (append beside-processes (list process)))
    process))

(defun beside-end (process status exit text)
  (setf (beside-process-status process) status)
  (setf (beside-process-exit process) exit)
  (beside-enter "sentinel" (beside-process-sentinel process) (list process text))
  (setf (beside-process-listed process) nil))

(defun beside-delete-process (process)
  (when (eq (beside-process-status process) 'run)
    (delete-process (beside-process-child process))
    (beside-end process 'signal nil "killed\n")))

(defun beside-hear-end (process)
  (let ((code (cdr (beside-process-ended process))))
    (cond ((not (eq (car (beside-process-ended process)) 'exit)) (beside-end process 'signal nil "killed\n"))
          ((= code 0) (beside-end process 'exit 0 "finished\n"))
          (t (beside-end process 'exit code (format "exited abnormally with code %d\n" code))))))

(defun beside-ask (process)
  "Ask PROCESS one question, and enter what comes of it; whether a read gave bytes."
  (if (beside-process-drained process)
      (progn (beside-hear-end process) nil)
    (while (not (or (beside-process-pieces process) (beside-process-ended process)))
      (accept-process-output (beside-process-child process) 1 nil t))
    (let ((text (pop (beside-process-pieces process))))
      (cond ((null text) (setf (beside-process-drained process) t) nil)
            (t (setf (beside-process-heard process) t)
               (unless (equal text "")
                 (beside-enter "filter" (beside-process-filter process) (list process text)))
               t)))))

(defun beside-may-ask (process target just)
  (and (eq (beside-process-status process) 'run)
       (not (eq (beside-process-filter process) t))
       (or (not just) (null target) (eq process target))))

(defun beside-round (target just)
  "Whom a round asks: the target first, then by number."
  (let ((all (cl-remove-if-not (lambda (p) (beside-may-ask p target just)) beside-processes)))
    (if (memq target all) (cons target (remq target all)) all)))

(defun beside-wait (target rounds just)
  (let ((asking nil) (heard nil) (answer 'none))
    (while (eq answer 'none)
      (while (and asking (not (beside-may-ask (car asking) target just))) (pop asking))
      (cond (heard (setq answer t))
            ((and target (not (beside-may-ask target target just))) (setq answer nil))
            (asking (let ((process (pop asking)))
                      (when (and (beside-ask process) (or (null target) (eq process target))) (setq heard t))))
            ((or (= rounds 0) (null (setq asking (beside-round target just)))) (setq answer nil))
            (t (setq rounds (1- rounds)))))
    answer))

(defun beside-accept (target rounds just)
  (let ((rounds (or rounds 1000)))
    (unless (<= 1 rounds 1000) (beside-refuse 1))
    (when (>= beside-depth 16) (beside-refuse 13))
    (beside-wait target rounds just)))

(defun beside-send (process string)
  (unless (equal string "")
    (when (or (not (eq (beside-process-status process) 'run)) (beside-process-closed process)) (beside-refuse 10))
    (condition-case nil (process-send-string (beside-process-child process) string)
      (error (beside-refuse 11))))
  nil)

(defun beside-send-eof (process)
  (unless (eq (beside-process-status process) 'run) (beside-refuse 10))
  (unless (beside-process-closed process)
    (ignore-errors (process-send-eof (beside-process-child process)))
    (setf (beside-process-closed process) t))
  process)

;; EVERY CALL: what it does and answers, where nothing is refused
(defun beside-made (word args raw)
  (let ((a (nth 0 args)) (b (nth 1 args)) (c (nth 2 args)) (d (nth 3 args)) (e (nth 4 args)))
    (pcase word
      ('get-buffer (get-buffer a))
      ('get-buffer-create (cond ((bufferp a) a)
                                ((get-buffer a) (get-buffer a))
                                ((equal a "") (beside-refuse 2))
                                (t (beside-new-buffer a))))
      ('generate-new-buffer (beside-short a) (beside-new-buffer (beside-free-name a nil)))
      ('rename-buffer (beside-rename a))
      ('kill-buffer (beside-kill (or a (current-buffer))))
      ('buffer-live-p (and (bufferp a) (buffer-live-p a)))
      ('buffer-list (beside-live-buffers))
      ('buffer-modified-p (and (buffer-modified-p (or a (current-buffer))) t))
      ('set-buffer-modified-p (set-buffer-modified-p (and a t)) (and a t))
      ('buffer-read-only-p (and (buffer-local-value 'buffer-read-only (or a (current-buffer))) t))
      ('set-buffer-read-only (setq buffer-read-only (and a t)))
      ('buffer-narrowed-p (and (buffer-narrowed-p) t))
      ('buffer-size (buffer-size (or a (current-buffer))))
      ('goto-char (goto-char a) (car raw))
      ('char-after (char-after (or a (point))))
      ('buffer-string (beside-fit (- (point-max) (point-min))) (buffer-string))
      ((or 'buffer-substring 'buffer-substring-no-properties) (beside-fit (abs (- a b))) (funcall word a b))
      ((or 'insert 'insert-and-inherit) (beside-may-insert (length (apply #'concat args))) (beside-insert args word))
      ((or 'insert-before-markers 'insert-before-markers-and-inherit)
       (beside-may-insert (length (apply #'concat args)))
       (beside-insert args word))
      ('insert-buffer-substring (beside-insert-part a b c))
      ('delete-region (beside-delete a b #'delete-region) nil)
      ('delete-and-extract-region (beside-delete a b #'delete-and-extract-region))
      ('erase-buffer (beside-erase))
      ('narrow-to-region (narrow-to-region a b) nil)
      ('widen (widen) nil)
      ((or 'make-marker 'point-marker) (beside-new-marker (funcall word)))
      ('copy-marker (beside-new-marker (copy-marker (car raw) (and b t))))
      ('set-marker (set-marker a b (or c (current-buffer))) a)
      ('marker-insertion-type (and (marker-insertion-type a) t))
      ('set-marker-insertion-type (set-marker-insertion-type a (and b t)) (and b t))
      ('get-text-property (and (/= a (point-max)) (get-text-property a b)))
      ('text-properties-at (and (/= a (point-max)) (beside-flat (beside-set (text-properties-at a)))))
      ('put-text-property (beside-properties a b (lambda (from to) (beside-add from to (list c d)))) nil)
      ('add-text-properties (beside-properties a b (lambda (from to) (beside-add from to c))))
      ('remove-text-properties (beside-properties a b (lambda (from to) (remove-text-properties from to c))))
      ('set-text-properties (beside-properties a b (lambda (from to) (beside-replace from to c))))
      ('next-property-change (beside-up-to (next-property-change a) b))
      ('next-single-property-change (beside-up-to (next-single-property-change a b) c))
      ('previous-property-change (beside-down-to (previous-property-change a) b))
      ('previous-single-property-change (beside-down-to (previous-single-property-change a b) c))
      ((or 'text-property-any 'text-property-not-all) (funcall word (min a b) (max a b) c d))
      ('make-overlay
       (let* ((home (or c (current-buffer))) (made (make-overlay (beside-near a home) (beside-near b home) home d e)))
         (setq beside-overlays (append beside-overlays (list made)))
         made))
      ('overlay-put (overlay-put a b c) (nth 2 raw))
      ('overlay-properties (beside-flat (beside-set (overlay-properties a))))
      ('move-overlay (beside-move a b c d))
      ('delete-overlay (delete-overlay a) nil)
      ('overlays-at (beside-by-number (overlays-at a)))
      ('overlays-in (beside-within a b))
      ('get-char-property (beside-char-property a b))
      ('add-hook (beside-set-hook a b t))
      ('remove-hook (beside-set-hook a b nil))
      ('undo-boundary (undo-boundary) nil)
      ('undo-start (when (eq buffer-undo-list t) (beside-refuse 8)) (setq beside-pending buffer-undo-list) nil)
      ('undo-more (beside-undo a))
      ('buffer-undo-list (if (listp buffer-undo-list) (mapcar #'beside-shown-record buffer-undo-list) t))
      ('buffer-disable-undo (buffer-disable-undo) (setq beside-pending t) nil)
      ('buffer-enable-undo (buffer-enable-undo) nil)
      ('start-process (beside-start a b c (nthcdr 3 args)))
      ('process-list (cl-remove-if-not #'beside-process-listed beside-processes))
      ('get-process a)
      ('process-name (beside-process-name a))
      ('process-status (beside-process-status a))
      ('process-buffer (beside-process-buffer a))
      ('process-mark (beside-process-mark a))
      ('process-live-p (eq (beside-process-status a) 'run))
      ('process-exit-status (if (eq (beside-process-status a) 'run) 0 (beside-process-exit a)))
      ('process-filter (beside-process-filter a))
      ('process-sentinel (beside-process-sentinel a))
      ('process-coding-system (beside-process-coding a))
      ('set-process-coding-system (beside-set-coding a b))
      ('set-process-filter (setf (beside-process-filter a) b) b)
      ('set-process-sentinel (setf (beside-process-sentinel a) b) b)
      ('set-process-buffer (setf (beside-process-buffer a) b) (nth 1 raw))
      ('process-send-string (beside-send a b))
      ('process-send-eof (beside-send-eof a))
      ('delete-process
       (when (and (eq (beside-process-status a) 'run) (>= beside-depth 16)) (beside-refuse 13))
       (beside-delete-process a)
       nil)
      ('accept-process-output (beside-accept a b c))
      ;; the rest answers in Emacs as here
      (_ (apply word args)))))

;; THE RUN
(defun beside-read (script)
  (with-temp-buffer
    (let ((coding-system-for-read 'utf-8-unix)) (insert-file-contents script))
    (goto-char (point-min))
    (let ((forms nil))
      (condition-case nil (while t (push (read (current-buffer)) forms))
        (end-of-file nil))
      (nreverse forms))))

(defun beside-dump-buffer (buffer)
  (let ((current (eq buffer (current-buffer))))
    (with-current-buffer buffer
      (apply #'beside-line 0 "buffer" (beside-text (buffer-name)) "point" (number-to-string (point))
             "min" (number-to-string (point-min)) "max" (number-to-string (point-max))
             "modified" (if (buffer-modified-p) "t" "nil")
             (append (and buffer-read-only (list "read-only")) (and current (list "current"))))
      (save-restriction
        (widen)
        (beside-line 0 "text" (beside-shown (buffer-string)))))))

(defun beside-dump-objects (word objects more)
  (let ((i 0))
    (dolist (object objects)
      (apply #'beside-line 0 word (number-to-string i) (beside-shown object) (funcall more object))
      (setq i (1+ i)))))

(defun beside-status (process)
  (list (symbol-name (beside-process-status process))
        (if (eq (beside-process-status process) 'run) "0" (beside-shown (beside-process-exit process)))))

(defun beside-finish ()
  (dolist (process beside-processes)
    (when (eq (beside-process-status process) 'run)
      (delete-process (beside-process-child process))
      (beside-line 0 "kill" (beside-shown process))))
  (mapc #'beside-dump-buffer (beside-live-buffers))
  (beside-dump-objects "marker" beside-markers #'ignore)
  (beside-dump-objects "overlay" beside-overlays
                       (lambda (o) (list (beside-shown-set (beside-set (overlay-properties o))))))
  (beside-dump-objects "process" beside-processes #'beside-status))

(defun beside-prepare ()
  "Make Emacs as it has to be: *scratch* empty and unmodified, nothing read-only, undo records only from changes."
  (setq inhibit-read-only t
        undo-limit most-positive-fixnum
        undo-strong-limit most-positive-fixnum
        undo-outer-limit nil
        max-lisp-eval-depth 100000
        max-specpdl-size 100000)
  (setq-default text-property-default-nonsticky nil)
  (defalias 'undo-auto--undoable-change #'ignore)
  (set-buffer (get-buffer-create "*scratch*"))
  (fundamental-mode)
  (widen)
  (erase-buffer)
  (beside-take-buffer (current-buffer))
  (setq buffer-undo-list nil)
  (set-buffer-modified-p nil))

(defun beside-emacs ()
  "Run the script that the first word of the command line names, and write its lines to the file of the second."
  (let* ((script (expand-file-name (pop command-line-args-left)))
         (output (expand-file-name (pop command-line-args-left)))
         (forms (beside-read script)))
    (mapc #'beside-note beside-first-names)
    (mapc #'beside-note-form forms)
    (mapc #'beside-note beside-shipped)
    (beside-prepare)
    (dolist (form forms)
      (when (eq (car form) 'defhandler) (push (cdr form) beside-handlers)))
    (dolist (form forms)
      (unless (eq (car form) 'defhandler)
        (condition-case nil (beside-form form)
          (beside-told nil))))
    (beside-finish)
    (let ((coding-system-for-write 'no-conversion))
      (write-region (encode-coding-string (apply #'concat (nreverse beside-lines)) 'utf-8-unix) nil output nil 'silent))
    ;; before Emacs puts anything into *scratch*
    (kill-emacs)))

;;; beside_emacs.el ends here
