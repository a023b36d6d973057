;;; qrev-dap.el --- Step through QBE programs with dap-mode  -*- lexical-binding: t -*-

;; Registers the debug adapter qrev-dap with dap-mode, and adds what that lacks: to go back.
;;
;;   (load "PATH/editors/emacs/qrev-dap.el")
;;   M-x qrev-dap
;;
;; In the program's buffer, while its session is open:
;;
;;   C-c C-n  next          C-c C-c  continue          C-c C-b  a breakpoint at this line, or none
;;   C-c C-i  step in       C-c C-r  reverse continue  C-c C-l  what the temporaries hold
;;   C-c C-o  step out      C-c C-p  step back         C-c C-q  the end of the session
;;
;; `M-x dap-debug' has the template "qrev: this text" besides.  ../qrev.el is another mode, which needs nothing but Emacs.

;;; Code:

(require 'dap-mode)
(require 'dap-ui)

(defgroup qrev-dap nil "The debug adapter qrev-dap." :group 'tools)

(defcustom qrev-dap-adapter
  (expand-file-name "../../qrev-dap" (file-name-directory (or load-file-name buffer-file-name default-directory)))
  "The debug adapter."
  :type 'file)

;;; The session

(defun qrev-dap-populate (configuration)
  "CONFIGURATION with the adapter.
Where it names no program, that is the text of this buffer."
  (let ((program (or (plist-get configuration :program) (buffer-file-name))))
    (setq configuration (plist-put configuration :program (and program (expand-file-name program))))
    (unless (plist-get configuration :cwd)
      (setq configuration (plist-put configuration :cwd default-directory)))
    (plist-put configuration :dap-server-path (list qrev-dap-adapter))))

(dap-register-debug-provider "qrev" #'qrev-dap-populate)

(dap-register-debug-template
 "qrev: this text" (list :type "qrev" :request "launch" :name "qrev: this text" :stopOnEntry t))

(dap-register-debug-template
 "qrev: this text, recorded"
 (list :type "qrev" :request "launch" :name "qrev: recorded" :stopOnEntry t :record "session.script"))

(defun qrev-dap-configure (configure session breakpoints callback &rest more)
  "Send the filters of SESSION also where there are no BREAKPOINTS.
CONFIGURE is what dap-mode does with these, CALLBACK and MORE: without a
breakpoint it sends no filters, so that none would be on."
  (if (and (zerop (hash-table-count breakpoints)) (fboundp 'dap--set-exception-breakpoints)
           (equal (plist-get (dap--debug-session-launch-args session) :type) "qrev"))
      (dap--set-exception-breakpoints session callback)
    (apply configure session breakpoints callback more)))

(advice-add 'dap--configure-breakpoints :around #'qrev-dap-configure)

(defun qrev-dap-session ()
  "The session that is open."
  (or (dap--cur-session) (user-error "No session is open: M-x qrev-dap")))

(defun qrev-dap-thread-id (session)
  "The thread that requests of SESSION are about: a program has one."
  (or (dap--debug-session-thread-id session) 1))

(defun qrev-dap-send (command)
  "Send COMMAND, which moves the run, as dap-mode sends its own."
  (let ((session (qrev-dap-session)))
    (dap--send-message (dap--make-request command (list :threadId (qrev-dap-thread-id session)))
                       (dap--resp-handler) session)
    (dap--resume-application session)))

;;;###autoload
(defun qrev-dap-step-back ()
  "Go back to the place before, over calls."
  (interactive)
  (qrev-dap-send "stepBack"))

;;;###autoload
(defun qrev-dap-reverse-continue ()
  "Run back to a stop, or to the start."
  (interactive)
  (qrev-dap-send "reverseContinue"))

(defun qrev-dap-continue ()
  "Run to a stop, or to the end."
  (interactive)
  (let ((session (qrev-dap-session)))
    (dap-continue session (qrev-dap-thread-id session))))

(defun qrev-dap-show-temporaries ()
  "Say what the temporaries of the innermost frame hold."
  (interactive)
  (dap--send-message
   (dap--make-request "variables" (list :variablesReference 1))
   (dap--resp-handler
    (lambda (response)
      (message "%s" (mapconcat (lambda (variable) (format "%s = %s" (gethash "name" variable) (gethash "value" variable)))
                               (append (gethash "variables" (gethash "body" response)) nil) "\n"))))
   (qrev-dap-session)))

;;; Keys

(defvar qrev-dap-source-mode-map
  (let ((map (make-sparse-keymap)))
    (define-key map (kbd "C-c C-n") #'dap-next)
    (define-key map (kbd "C-c C-i") #'dap-step-in)
    (define-key map (kbd "C-c C-o") #'dap-step-out)
    (define-key map (kbd "C-c C-p") #'qrev-dap-step-back)
    (define-key map (kbd "C-c C-c") #'qrev-dap-continue)
    (define-key map (kbd "C-c C-r") #'qrev-dap-reverse-continue)
    (define-key map (kbd "C-c C-b") #'dap-breakpoint-toggle)
    (define-key map (kbd "C-c C-l") #'qrev-dap-show-temporaries)
    (define-key map (kbd "C-c C-q") #'dap-disconnect)
    map))

(define-minor-mode qrev-dap-source-mode
  "Keys that step through the program of this buffer."
  :lighter " qrev-dap")

;;;###autoload
(defun qrev-dap (file &optional more)
  "Debug the program in FILE.
MORE is a list of launch attributes, as (:entry \"square\" :args [\"5\"])."
  (interactive (list (read-file-name "Program: " nil buffer-file-name t)))
  (with-current-buffer (find-file-noselect file)
    (qrev-dap-source-mode 1)
    (dap-start-debugging
     (qrev-dap-populate (append (list :type "qrev" :request "launch" :name (file-name-nondirectory file)
                                      :program (expand-file-name file) :stopOnEntry t)
                                more)))))

(provide 'qrev-dap)
;;; qrev-dap.el ends here
