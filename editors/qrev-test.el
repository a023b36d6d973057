;;; qrev-test.el --- Tests of qrev.el  -*- lexical-binding: t -*-

;; Run by editors/test, with the debugger's command in QREV.

;;; Code:

(require 'ert)
(require 'qrev)

(setq qrev-command (getenv "QREV") qrev-options nil)

(defconst qrev-test-front (expand-file-name "../terminal/main" (file-name-directory load-file-name)))

(defconst qrev-test-folder (expand-file-name "../examples" (file-name-directory load-file-name)))

(defconst qrev-test-text "# function w $main() {
data $a = { w 1 }

function $other() {
@start
	ret
}
export
function w $main(w %n)
{
@start
	# nothing yet
	%a =w add %n, 1

	%b =w copy 2 # @start
@loop
	%c =w phi @start %a, @loop %d
	%e =w phi @start 0, @loop 1
	%d =w sub %c, 1
	jnz %d, @loop, @end
@end
	%phi =w copy 1
	ret %d
}
data $b = { w 2 }
")

(defun qrev-test-line (function block index)
  "The text of the line at a place of the text above, or nil."
  (with-temp-buffer
    (insert qrev-test-text)
    (let ((position (qrev-position function block index)))
      (when position
        (goto-char position)
        (buffer-substring-no-properties (line-beginning-position) (line-end-position))))))

(ert-deftest qrev-test-from-place-to-line ()
  (should (equal (qrev-test-line "$other" "@start" 0) "\tret"))
  (should (equal (qrev-test-line "$main" "@start" 0) "\t%a =w add %n, 1"))
  (should (equal (qrev-test-line "$main" "@start" 1) "\t%b =w copy 2 # @start"))
  (should (equal (qrev-test-line "$main" "@start" 2) "@loop"))
  (should (equal (qrev-test-line "$main" "@loop" 0) "\t%d =w sub %c, 1"))
  (should (equal (qrev-test-line "$main" "@loop" 1) "\tjnz %d, @loop, @end"))
  (should (equal (qrev-test-line "$main" "@end" 0) "\t%phi =w copy 1"))
  (should (equal (qrev-test-line "$main" "@end" 1) "\tret %d"))
  (should (null (qrev-test-line "$other" "@loop" 0)))
  (should (null (qrev-test-line "$mai" "@start" 0))))

(defun qrev-test-place (line)
  "The place of the first line that contains LINE in the text above, or nil."
  (with-temp-buffer
    (insert qrev-test-text)
    (goto-char (point-min))
    (search-forward line)
    (qrev-place-at-point)))

(ert-deftest qrev-test-from-line-to-place ()
  (should (equal (qrev-test-place "\tret\n}") nil))
  (should (equal (qrev-test-place "\tret") "$other @start 0"))
  (should (equal (qrev-test-place "w $main(w") "$main @start 0"))
  (should (equal (qrev-test-place "add %n") "$main @start 0"))
  (should (equal (qrev-test-place "%b =w") "$main @start 1"))
  (should (equal (qrev-test-place "%e =w") "$main @loop 0"))
  (should (equal (qrev-test-place "sub %c") "$main @loop 0"))
  (should (equal (qrev-test-place "jnz") "$main @loop 1"))
  (should (equal (qrev-test-place "@end\n\t") "$main @end 0"))
  (should (equal (qrev-test-place "ret %d") "$main @end 1"))
  (should (null (qrev-test-place "data $a")))
  (should (null (qrev-test-place "data $b"))))

(defun qrev-test-wait (session text)
  "Wait until the last lines of SESSION are TEXT."
  (let ((end (+ (float-time) 60)))
    (while (and (< (float-time) end)
                (not (with-current-buffer session (string-suffix-p text (buffer-string)))))
      (accept-process-output (get-buffer-process session) 0.1)))
  (should (with-current-buffer session (string-suffix-p text (buffer-string)))))

(defun qrev-test-arrow ()
  "The line at the arrow, or nil."
  (and qrev-arrow
       (with-current-buffer (marker-buffer qrev-arrow)
         (save-excursion
           (goto-char qrev-arrow)
           (buffer-substring-no-properties (line-beginning-position) (line-end-position))))))

(ert-deftest qrev-test-session ()
  (let* ((session (qrev (expand-file-name "squares.ssa" qrev-test-folder)))
         (program (get-file-buffer (expand-file-name "squares.ssa" qrev-test-folder))))
    (set-process-query-on-exit-flag (get-buffer-process session) nil)
    (qrev-test-wait session "#0 $main @start 0\n")
    (should (equal (qrev-test-arrow) "\tcall $fill()"))
    (qrev-continue)
    (qrev-test-wait session "#88 done 30\n")
    (should (null (qrev-test-arrow)))
    (qrev-send "watch w $bias")
    (qrev-test-wait session "watch 1 w 65552\n")
    (qrev-reverse)
    (qrev-test-wait session "#44 $fill @body 4\n")
    (should (equal (qrev-test-arrow) "\tstorew %square, %place"))
    (qrev-step)
    (qrev-test-wait session "#45 $fill @body 5\n")
    (should (equal (qrev-test-arrow) "\t%next =w add %i, 1"))
    (qrev-back)
    (qrev-test-wait session "#44 $fill @body 4\n")
    (with-current-buffer program
      (should qrev-source-mode)
      (goto-char (point-min))
      (search-forward "mul %i, %i")
      (qrev-break)
      (qrev-test-wait session "break 2 $fill @body 0\n")
      (search-forward "add $squares, %by")
      (qrev-print))
    (qrev-test-wait session "%bytes = 16\n")
    (qrev-reverse)
    (qrev-test-wait session "#40 $fill @body 0\n")
    (should (equal (qrev-test-arrow) "\t%square =w mul %i, %i"))
    (with-current-buffer program
      (goto-char (point-min))
      (should-error (qrev-break) :type 'user-error)
      (should-error (qrev-print) :type 'user-error))
    (delete-process (get-buffer-process session))
    (should-error (qrev-step) :type 'user-error)))

(ert-deftest qrev-test-front-end ()
  (let* ((qrev-command qrev-test-front)
         (qrev-options (list "--debugger" (getenv "QREV") "--"))
         (session (qrev (expand-file-name "largest.ssa" qrev-test-folder)))
         (program (get-file-buffer (expand-file-name "largest.ssa" qrev-test-folder))))
    (set-process-query-on-exit-flag (get-buffer-process session) nil)
    (qrev-test-wait session "`help` lists the commands\n")
    (should (equal (qrev-test-arrow) "\t%t1 =w call $largest(l $numbers, w 4)"))
    (with-current-buffer program
      (should qrev-source-mode)
      (goto-char (point-min))
      (search-forward "%best.ne")
      (qrev-watch)
      (qrev-test-wait session "watch 1: $largest %best.next\n")
      (goto-char (point-min))
      (search-forward "$numb")
      (qrev-watch)
      (qrev-test-wait session "watch 2: w $numbers+0\n")
      (qrev-continue)
      (qrev-test-wait session "  28  @end\n")
      (should (equal (qrev-test-arrow) "\t%i.next =w add %i, 1"))
      (qrev-where)
      (qrev-test-wait session "  1  $main @start 1  line 34: %t1 =w call $largest(l $numbers, w 4)\n")
      (qrev-temps)
      (qrev-test-wait session "%t6 = 1\n")
      (goto-char (point-min))
      (search-forward "%best.ne")
      (qrev-why)
      (qrev-test-wait session "[2] the way to @larger\n")
      (qrev-why 1)
      (qrev-test-wait session "[2] the call of $largest\n")
      (goto-char (point-min))
      (qrev-why)
      (qrev-test-wait session "[1] the way to @larger\n")
      (should-error (qrev-watch) :type 'user-error))
    (delete-process (get-buffer-process session))))

(defconst qrev-test-check (expand-file-name "../check/main" (file-name-directory load-file-name)))

(defun qrev-test-checked (file)
  "The buffer of a check of FILE that has ended, by the program that is tested."
  (let ((qrev-command (make-temp-file "qrev" nil ".sh"))
        (compilation-always-kill t))
    (with-temp-file qrev-command
      (insert (format "#!/bin/sh\nshift\nexec %s --debugger %s -- \"$@\"\n" qrev-test-check (getenv "QREV"))))
    (set-file-modes qrev-command #o755)
    (unwind-protect
        (let ((buffer (qrev-check file)))
          (while (get-buffer-process buffer) (accept-process-output nil 0.1))
          buffer)
      (delete-file qrev-command))))

(ert-deftest qrev-test-check-goes-to-the-suspicious-line ()
  (with-current-buffer (qrev-test-checked (expand-file-name "squares.ssa" qrev-test-folder))
    (goto-char (point-min))
    (compilation-next-error 1)
    (let ((next-error-last-buffer (current-buffer)) (next-error-highlight nil))
      (compile-goto-error))
    (with-current-buffer "squares.ssa"
      (should (equal (line-number-at-pos) 18))
      (should (looking-at "[ \t]*storew %square, %place")))))

(ert-deftest qrev-test-check-goes-to-a-refusal ()
  (let ((file (make-temp-file "refused" nil ".ssa" "function w $main() {\n@start\n\tret %y\n}\n")))
    (with-current-buffer (qrev-test-checked file)
      (goto-char (point-min))
      (compilation-next-error 1)
      (compile-goto-error))
    (with-current-buffer (file-name-nondirectory file)
      (should (equal (line-number-at-pos) 3))
      (kill-buffer))
    (delete-file file)))

;;; qrev-test.el ends here
