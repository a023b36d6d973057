;;; qrev-dap-test.el --- A session of qrev-dap.el  -*- lexical-binding: t -*-

;; Run by editors/emacs/test, with the adapter in QREV_DAP and the folder for all that is written in QREV_HOME.

;;; Code:

(setq user-emacs-directory (file-name-as-directory (getenv "QREV_HOME")))
(require 'ert)
(require 'package)
(package-initialize)
(require 'dap-mode)
(setq dap-breakpoints-file (expand-file-name "breakpoints" user-emacs-directory)
      lsp-session-file (expand-file-name "session" user-emacs-directory)
      dap-auto-configure-features nil dap-auto-show-output nil dap-print-io nil)
(load (expand-file-name "qrev-dap.el" (file-name-directory load-file-name)))
(setq qrev-dap-adapter (getenv "QREV_DAP"))

(defvar qrev-dap-test-frame nil "The frame that was shown since something was asked, or nil.")

(add-hook 'dap-stack-frame-changed-hook
          (lambda (session) (setq qrev-dap-test-frame (dap--debug-session-active-frame session))))

(defun qrev-dap-test-wait (condition)
  "Wait until CONDITION gives something, and give it."
  (let ((end (+ (float-time) 30)) found)
    (while (and (not (setq found (funcall condition))) (< (float-time) end))
      (accept-process-output nil 0.05))
    found))

(defmacro qrev-dap-test-place (place line &rest body)
  "Do BODY, and see that the frame that is shown then is PLACE, on LINE.
The cursor is there; LINE is nil where the run is over."
  (declare (indent 2))
  `(progn
     (setq qrev-dap-test-frame nil)
     ,@body
     (let ((frame (qrev-dap-test-wait (lambda () qrev-dap-test-frame))))
       (should (equal (and frame (gethash "name" frame)) ,place))
       (when ,line
         (should (equal (gethash "line" frame) ,line))
         (should (equal (line-number-at-pos) ,line))))))

(defun qrev-dap-test-ask (command arguments)
  "What comes back when COMMAND is asked with ARGUMENTS."
  (let (answer)
    (dap--send-message (dap--make-request command arguments)
                       (dap--resp-handler (lambda (response) (setq answer (gethash "body" response))))
                       (qrev-dap-session))
    (qrev-dap-test-wait (lambda () answer))))

(defun qrev-dap-test-values (reference)
  "The names and values of the variables of REFERENCE."
  (mapcar (lambda (variable) (list (gethash "name" variable) (gethash "value" variable)))
          (gethash "variables" (qrev-dap-test-ask "variables" (list :variablesReference reference)))))

(defun qrev-dap-test-has-filters ()
  "Whether the console stands before the adapter, so that runs stop before suspicious moves."
  (gethash "exceptionBreakpointFilters" (dap--debug-session-current-capabilities (qrev-dap-session))))

(ert-deftest qrev-dap-test-session ()
  (let ((file (expand-file-name "squares.ssa" user-emacs-directory)))
    (find-file file)
    (goto-char (point-min))
    (forward-line 10)
    (dap-breakpoint-add)
    (qrev-dap-test-place "$main @start 0" 27 (qrev-dap file '(:record "emacs.script")))
    (should qrev-dap-source-mode)
    (qrev-dap-test-place "$fill @loop 0" 11 (call-interactively (key-binding (kbd "C-c C-c"))))
    (qrev-dap-test-place "$fill @loop 1" 12 (call-interactively (key-binding (kbd "C-c C-n"))))
    (qrev-dap-test-place "$fill @body 0" 14 (call-interactively (key-binding (kbd "C-c C-i"))))
    (should (equal (qrev-dap-test-values 1)
                   '(("%i" "0") ("%next" "unset") ("%more" "1") ("%square" "unset") ("%offset" "unset")
                     ("%bytes" "unset") ("%place" "unset"))))
    (qrev-dap-test-place "$fill @loop 1" 12 (call-interactively (key-binding (kbd "C-c C-p"))))
    (should (equal (gethash "result" (qrev-dap-test-ask "evaluate" '(:expression "more" :frameId 1 :context "hover"))) "1"))
    (qrev-dap-test-place "$fill @loop 0" 11 (call-interactively (key-binding (kbd "C-c C-r"))))
    (qrev-dap-test-place "$main @start 0" 27 (call-interactively (key-binding (kbd "C-c C-r"))))
    (with-current-buffer (find-file-noselect file) (dap-breakpoint-delete-all))
    (qrev-dap-test-wait (lambda () (equal (gethash "result" (qrev-dap-test-ask "evaluate" '(:expression "stops" :context "repl")))
                                          "none")))
    (when (qrev-dap-test-has-filters)
      (qrev-dap-test-place "$fill @body 4" 18 (call-interactively (key-binding (kbd "C-c C-c")))))
    ;; The session stays open at the end of the run, and goes back from it.
    (qrev-dap-test-place "#88 done 30" nil (call-interactively (key-binding (kbd "C-c C-c"))))
    (should (equal (qrev-dap-test-values 1073741825) '(("$squares" "0") ("$bias" "16"))))
    (qrev-dap-test-place "$main @end 2" 44 (call-interactively (key-binding (kbd "C-c C-p"))))
    (qrev-dap-test-place "$main @end 1" 43 (call-interactively (key-binding (kbd "C-c C-p"))))
    (qrev-dap-test-place "$main @end 2" 44 (call-interactively (key-binding (kbd "C-c C-n"))))
    (dap-disconnect (qrev-dap-session))
    (should (qrev-dap-test-wait (lambda () (file-exists-p (expand-file-name "emacs.script.transcript" user-emacs-directory)))))))

(ert-deftest qrev-dap-test-filters ()
  "Without a breakpoint a run stops before a suspicious move too."
  ;; The adapter alone has no filters.
  (skip-unless (string-suffix-p "/qrev-dap" qrev-dap-adapter))
  (let ((file (expand-file-name "squares.ssa" user-emacs-directory)))
    (find-file file)
    (dap-breakpoint-delete-all)
    (qrev-dap-test-place "$main @start 0" 27 (qrev-dap file nil))
    (qrev-dap-test-place "$fill @body 4" 18 (call-interactively (key-binding (kbd "C-c C-c"))))
    (dap-disconnect (qrev-dap-session))))

;; (1.5 + 2) / 2 * 4 is 7.
(defconst qrev-dap-test-floats "export function w $main() {
@start
\t%a =d add d_1.5, d_2
\t%b =d call $half(d %a)
\t%c =w dtosi %b
\tret %c
}
function d $half(d %x) {
@start
\t%y =d div %x, d_2
\t%z =d mul %y, d_4
\tret %z
}
")

(ert-deftest qrev-dap-test-whole-qbe ()
  "A text with floats is launched as it is, and shown by its own lines."
  ;; The adapter alone refuses it.
  (skip-unless (string-suffix-p "/qrev-dap" qrev-dap-adapter))
  (let ((file (expand-file-name "floats.ssa" user-emacs-directory)))
    (with-temp-file file (insert qrev-dap-test-floats))
    (find-file file)
    (goto-char (point-min))
    (forward-line 10)
    (dap-breakpoint-add)
    (qrev-dap-test-place "$main @start 0" 3 (qrev-dap file nil))
    (qrev-dap-test-place "$half @start 1" 11 (call-interactively (key-binding (kbd "C-c C-c"))))
    (should (member '("%y" "1.75") (qrev-dap-test-values 1)))
    (qrev-dap-test-place "$half @start 0" 10 (call-interactively (key-binding (kbd "C-c C-p"))))
    (qrev-dap-test-place "$half @start 1" 11 (call-interactively (key-binding (kbd "C-c C-n"))))
    (qrev-dap-test-place "$main @start 2" 5 (call-interactively (key-binding (kbd "C-c C-o"))))
    (dap-disconnect (qrev-dap-session))
    (dap-breakpoint-delete-all)))

(ert-deftest qrev-dap-test-templates ()
  (find-file (expand-file-name "squares.ssa" user-emacs-directory))
  (dolist (name '("qrev: this text" "qrev: this text, recorded"))
    (qrev-dap-test-place "$main @start 0" 27
      (dap-debug (copy-tree (cdr (assoc name dap-debug-template-configurations)))))
    (qrev-dap-test-place "$fill @start 0" 8 (dap-step-in (qrev-dap-session)))
    (when (qrev-dap-test-has-filters)
      (qrev-dap-test-place "$fill @body 4" 18 (dap-step-out (qrev-dap-session))))
    (qrev-dap-test-place "$main @start 1" 28 (dap-step-out (qrev-dap-session)))
    (dap-disconnect (qrev-dap-session)))
  (should (qrev-dap-test-wait (lambda () (file-exists-p (expand-file-name "session.script.transcript" user-emacs-directory))))))

;;; qrev-dap-test.el ends here
