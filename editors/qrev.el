;;; qrev.el --- Step through QBE programs forwards and backwards  -*- lexical-binding: t -*-

;; Runs the debugger qrev in a buffer of its own, and shows with an arrow in the program's text where the run stands.
;; The arrow follows the place lines, `#N $func @block index'.
;;
;;   (load "PATH/editors/qrev.el")
;;   M-x qrev
;;
;; In the program's buffer, while a session runs:
;;
;;   C-c C-n  step          C-c C-c  continue       C-c C-b  a breakpoint at this line
;;   C-c C-p  back          C-c C-r  reverse        C-c C-t  print the temporary at point
;;   C-c C-w  watch of the temporary or the data at point
;;   C-c C-s  where         C-c C-v  temps          C-c C-y  why, of the temporary at point or of where the run stands
;;
;; M-x qrev-check (C-c C-k) runs a text, and goes to the lines of what is suspicious in it (docs/CHECKING.md), or to that of
;; a refusal.
;;
;; If the run is over there is no arrow.  The session is that of the front end (docs/TERMINAL.md), which alone knows
;; `why'; where `qrev-options' is nil it is the plain one.
;;
;; Labels, phis, instructions and jumps have a line each, as the language wants it.  A label behind the `{' of its function,
;; on the same line, isn't found.

;;; Code:

(require 'comint)
(require 'compile)
(require 'subr-x)

(defgroup qrev nil "The debugger qrev." :group 'tools)

(defcustom qrev-command
  (expand-file-name "../qrev" (file-name-directory (or load-file-name buffer-file-name default-directory)))
  "The debugger's command."
  :type 'file)

(defcustom qrev-options '("--prompt")
  "Words before the program: those of the front end, or nil for the plain one."
  :type '(repeat string))

(defvar qrev-arrow nil "Where the run stands, as a marker at the beginning of a line.")
(add-to-list 'overlay-arrow-variable-list 'qrev-arrow)

(defvar qrev-session nil "The buffer of the session that was started last.")

(defvar-local qrev-program nil "The buffer with the text of the program that runs in this session.")
(defvar-local qrev-unfinished "" "What was put out behind the last whole line.")

(defconst qrev-name "[[:alnum:]._$]+")

(defconst qrev-place-line
  (format "\\`#[0-9]+\\(?: \\(\\$%s\\) \\(@%s\\) \\([0-9]+\\)\\| \\(?:done\\|exit\\|fault\\).*\\)\\'" qrev-name qrev-name)
  "A place line: function, block and index, or none where the run is over.")

;;; From places to lines, and back

(defun qrev-line-kind ()
  "What the line at point is: `function', `block', `phi', `code', `end' or nil.
Instructions and jumps are `code', and so is what stands outside of functions."
  (save-excursion
    (beginning-of-line)
    (let ((case-fold-search nil))
      (cond ((looking-at (format "[^#\"\n]*\\_<function[ \t][^#\"(\n]*\\$%s[ \t]*(" qrev-name)) 'function)
            ((looking-at "[ \t]*@") 'block)
            ((looking-at "[ \t]*}") 'end)
            ((looking-at "[ \t\r]*\\(?:#.*\\)?$") nil)
            ((looking-at (format "[ \t]*%%%s[ \t]*=[ \t]*[wl][ \t]+phi\\_>" qrev-name)) 'phi)
            ((looking-at "[ \t]*{") nil)
            (t 'code)))))

(defun qrev-line-name (sigil)
  "The first name with SIGIL on the line at point."
  (save-excursion
    (beginning-of-line)
    (and (re-search-forward (concat (regexp-quote sigil) qrev-name) (line-end-position) t)
         (match-string-no-properties 0))))

(defun qrev-find-line (kind sigil name)
  "Go to the next line of KIND whose first name with SIGIL is NAME.
A block is looked for up to the end of the function."
  (let (found)
    (while (and (not found) (not (eobp)))
      (cond ((and (eq (qrev-line-kind) kind) (equal (qrev-line-name sigil) name)) (setq found t))
            ((and (eq kind 'block) (eq (qrev-line-kind) 'end)) (goto-char (point-max)))
            (t (forward-line))))
    found))

(defun qrev-position (function block index)
  "The beginning of the line that stands at INDEX of BLOCK of FUNCTION, or nil.
A jump that the text leaves out is at the label behind it."
  (save-excursion
    (save-restriction
      (widen)
      (goto-char (point-min))
      (when (and (qrev-find-line 'function "$" function)
                 (qrev-find-line 'block "@" block))
        (forward-line)
        (while (and (not (eobp))
                    (not (memq (qrev-line-kind) '(block end)))
                    (or (not (eq (qrev-line-kind) 'code)) (> index 0)))
          (when (eq (qrev-line-kind) 'code) (setq index (1- index)))
          (forward-line))
        (point)))))

(defun qrev-place-at-point ()
  "The place of the line at point, as \"$func @block index\".
Nil where no run stands: outside of functions, and at the end of one."
  (save-excursion
    (save-restriction
      (widen)
      (beginning-of-line)
      (let ((index 0) function block)
        (when (memq (qrev-line-kind) '(function block phi code))
          (when (eq (qrev-line-kind) 'function)
            (while (and (not (eobp)) (not (eq (qrev-line-kind) 'block))) (forward-line)))
          (while (and (not (memq (qrev-line-kind) '(block end))) (not (bobp)))
            (forward-line -1)
            (when (eq (qrev-line-kind) 'code) (setq index (1+ index))))
          (setq block (and (eq (qrev-line-kind) 'block) (qrev-line-name "@")))
          (while (and (not (eq (qrev-line-kind) 'function)) (not (bobp))) (forward-line -1))
          (setq function (and (eq (qrev-line-kind) 'function) (qrev-line-name "$")))
          (and function block (format "%s %s %d" function block index)))))))

;;; The session

(defun qrev-show (program line)
  "Move the arrow in the buffer PROGRAM where LINE is a place line."
  (when (string-match qrev-place-line line)
    (let* ((function (match-string 1 line)) (block (match-string 2 line)) (index (match-string 3 line))
           (position (and function (buffer-live-p program)
                          (with-current-buffer program (qrev-position function block (string-to-number index))))))
      (setq qrev-arrow (and position (with-current-buffer program (copy-marker position))))
      (when position
        (let ((window (get-buffer-window program t)))
          (when window (set-window-point window position)))
        (with-current-buffer program (goto-char position))))))

(defun qrev-follow (text)
  "Move the arrow by the place lines in TEXT, which was put out."
  (let ((lines (split-string (concat qrev-unfinished text) "\n")))
    (while (cdr lines)
      (qrev-show qrev-program (string-trim-right (pop lines) "\r")))
    (setq qrev-unfinished (car lines))))

(defun qrev-send (command)
  "Send COMMAND to the session, as if it had been typed."
  (unless (and (buffer-live-p qrev-session) (get-buffer-process qrev-session))
    (user-error "No session runs: M-x qrev"))
  (with-current-buffer qrev-session
    (goto-char (process-mark (get-buffer-process (current-buffer))))
    (let ((typed (delete-and-extract-region (point) (point-max))))
      (insert command)
      (comint-send-input)
      (insert typed))))

(defun qrev-step () "Move forward once." (interactive) (qrev-send "step"))
(defun qrev-back () "Move back once." (interactive) (qrev-send "back"))
(defun qrev-continue () "Run forward to a stop." (interactive) (qrev-send "continue"))
(defun qrev-reverse () "Run back to a stop." (interactive) (qrev-send "reverse"))

(defun qrev-break ()
  "Put a breakpoint at the line at point."
  (interactive)
  (let ((place (qrev-place-at-point)))
    (unless place (user-error "No run stands at this line"))
    (qrev-send (concat "break " place))))

(defun qrev-name-at-point (sigil)
  "The name at point that begins with SIGIL, or nil."
  (save-excursion
    (skip-chars-backward "[:alnum:]._$%")
    (and (looking-at (concat (regexp-quote sigil) qrev-name)) (match-string-no-properties 0))))

(defun qrev-print ()
  "Print the temporary at point."
  (interactive)
  (let ((name (qrev-name-at-point "%")))
    (unless name (user-error "No temporary at point"))
    (qrev-send (concat "print " name))))

(defun qrev-watch ()
  "Watch the temporary at point in its function, or the word of data at point."
  (interactive)
  (let ((temporary (qrev-name-at-point "%")) (data (qrev-name-at-point "$")) (place (qrev-place-at-point)))
    (cond ((and temporary place) (qrev-send (format "watch %s %s" (car (split-string place " ")) temporary)))
          (data (qrev-send (concat "watch w " data)))
          (t (user-error "No temporary and no data at point")))))

(defun qrev-where () "Show the frames." (interactive) (qrev-send "where"))
(defun qrev-temps () "Show the temporaries." (interactive) (qrev-send "temps"))

(defun qrev-why (&optional number)
  "Ask where the temporary at point comes from, or how the run came to its place.
With a prefix argument NUMBER ask on about that operand of the last cause."
  (interactive "P")
  (let ((name (qrev-name-at-point "%")))
    (qrev-send (cond (number (format "why %d" (prefix-numeric-value number)))
                     (name (concat "why " name))
                     (t "why")))))

(defun qrev-check-this () "Check the text of this buffer." (interactive) (qrev-check buffer-file-name))

;;; What a run does that no correct compiler's output does

(defvar-local qrev-checked nil "The text that this buffer is a check of.")

(defun qrev-checked-file () "The text that is checked here." qrev-checked)

(define-compilation-mode qrev-check-mode "qrev check"
  "What a check of a text says: `next-error' goes from line to line."
  (setq-local compilation-error-regexp-alist
              '(("^#[0-9]+ [^\n]*?  line \\([0-9]+\\): " qrev-checked-file 1 nil 1) gnu)))

;;;###autoload
(defun qrev-check (file)
  "Run the text in FILE, and show what it does that no correct compiler's output does."
  (interactive (list (or buffer-file-name (read-file-name "Program: " nil nil t))))
  (save-some-buffers nil (lambda () (equal buffer-file-name file)))
  (let* ((file (expand-file-name file))
         ;; To a pipe no progress is written.
         (process-connection-type nil)
         (buffer (compilation-start (mapconcat #'shell-quote-argument (list qrev-command "--check" file) " ") #'qrev-check-mode)))
    (with-current-buffer buffer (setq qrev-checked file))
    buffer))

(defvar qrev-source-mode-map
  (let ((map (make-sparse-keymap)))
    (define-key map (kbd "C-c C-n") #'qrev-step)
    (define-key map (kbd "C-c C-p") #'qrev-back)
    (define-key map (kbd "C-c C-c") #'qrev-continue)
    (define-key map (kbd "C-c C-r") #'qrev-reverse)
    (define-key map (kbd "C-c C-b") #'qrev-break)
    (define-key map (kbd "C-c C-t") #'qrev-print)
    (define-key map (kbd "C-c C-w") #'qrev-watch)
    (define-key map (kbd "C-c C-s") #'qrev-where)
    (define-key map (kbd "C-c C-v") #'qrev-temps)
    (define-key map (kbd "C-c C-y") #'qrev-why)
    (define-key map (kbd "C-c C-k") #'qrev-check-this)
    map))

(define-minor-mode qrev-source-mode
  "Keys that send commands to the session of this program."
  :lighter " qrev")

(define-derived-mode qrev-mode comint-mode "qrev"
  "A session of the debugger qrev."
  (setq-local comint-process-echoes nil)
  (add-hook 'comint-output-filter-functions #'qrev-follow nil t))

;;;###autoload
(defun qrev (file &optional words)
  "Debug the program in FILE, with the list of WORDS behind it.
They are words of the command line; a prefix argument asks for them."
  (interactive (list (read-file-name "Program: " nil buffer-file-name t)
                     (and current-prefix-arg (split-string-and-unquote (read-string "Words: ")))))
  (let* ((file (expand-file-name file))
         (program (find-file-noselect file))
         (session (get-buffer-create (format "*qrev %s*" (file-name-nondirectory file)))))
    (when (get-buffer-process session) (user-error "The session of this program still runs"))
    (with-current-buffer program (qrev-source-mode 1))
    (with-current-buffer session
      (unless (derived-mode-p 'qrev-mode) (qrev-mode))
      (setq qrev-program program qrev-unfinished "" qrev-session session)
      (goto-char (point-max))
      (let ((process-connection-type nil))
        (apply #'make-comint-in-buffer "qrev" session qrev-command nil (append qrev-options (cons file words)))))
    (unless noninteractive
      (switch-to-buffer program)
      (display-buffer session))
    session))

(provide 'qrev)
;;; qrev.el ends here
