;;; clang_format.el --- Format C buffers with clang_format  -*- lexical-binding: t; -*-

;; Package-Requires: ((emacs "26.1"))

;;; Commentary:

;; Goes to a folder of `load-path', for example ~/.emacs.d/lisp, and these lines to the init file:
;;
;;   (add-to-list 'load-path "~/.emacs.d/lisp")
;;   (require 'clang_format)
;;   (add-hook 'c-mode-hook #'clang_format-on-save-mode)     ; and c-ts-mode-hook, where you use that mode
;;
;; M-x clang_format-buffer formats the buffer, M-x clang_format-region the lines of the region and no others, and
;; `clang_format-on-save-mode' the buffer whenever it is saved.  Point and marks stay at their text.

;;; Code:

(defgroup clang_format nil
  "Formatting C with clang_format."
  :group 'tools)

(defcustom clang_format-program "clang_format"
  "The program, a path or a name on variable `exec-path'."
  :type 'string)

(defcustom clang_format-style nil
  "The style, as the program's word --style takes it.
Nil is the nearest .clang-format above the file, or LLVM where there is none."
  :type '(choice (const :tag "The nearest .clang-format, or LLVM" nil) string))

(defun clang_format--style ()
  "The style's word."
  (let ((folder (locate-dominating-file (or buffer-file-name default-directory) ".clang-format")))
    (concat "--style=" (cond (clang_format-style)
                             (folder (concat "file:" (expand-file-name ".clang-format" folder)))
                             (t "LLVM")))))

(defun clang_format--call (result notes words)
  "Run the program with WORDS over the whole buffer; give its status.
Its output goes to the buffer RESULT, what it notes to the file NOTES."
  (let* ((coding (coding-system-change-eol-conversion
                  (if (memq (coding-system-base (or buffer-file-coding-system 'undecided)) '(undecided prefer-utf-8))
                      'utf-8
                    buffer-file-coding-system)
                  'unix))
         (coding-system-for-read coding)
         (coding-system-for-write coding))
    (save-restriction
      (widen)
      (apply #'call-process-region (point-min) (point-max) clang_format-program nil (list result notes) nil words))))

(defun clang_format--take (result)
  "Make the whole buffer the text of the buffer RESULT, and keep what is alike."
  (when (eq (coding-system-eol-type (or buffer-file-coding-system 'undecided)) 1)
    (with-current-buffer result
      (goto-char (point-min))
      (while (search-forward "\r\n" nil t)
        (replace-match "\n" t t))))
  (save-restriction
    (widen)
    (if (< emacs-major-version 27)
        (replace-buffer-contents result)
      (replace-buffer-contents result 2.0))))

(defun clang_format--format (words)
  "Format the buffer with WORDS.
Where that can't be done say why, and leave the buffer as it is."
  (let ((notes (make-temp-file "clang_format")))
    (unwind-protect
        (let* ((source (current-buffer))
               (words (cons (clang_format--style) words))
               (fault (with-temp-buffer
                        (let* ((result (current-buffer))
                               (status (with-current-buffer source (clang_format--call result notes words))))
                          (if (eq status 0)
                              (with-current-buffer source (clang_format--take result) nil)
                            (erase-buffer)
                            (insert-file-contents notes)
                            (goto-char (point-max))
                            (skip-chars-backward "\n")
                            (if (bobp) (format "status %s" status)
                              (buffer-substring (line-beginning-position) (point))))))))
          (when fault
            (message "clang_format: %s" fault)))
      (delete-file notes))))

;;;###autoload
(defun clang_format-buffer ()
  "Format the whole buffer."
  (interactive "*")
  (clang_format--format nil))

;;;###autoload
(defun clang_format-region (start end)
  "Format the lines from START to END, and no others."
  (interactive "*r")
  (let ((last (if (and (> end start) (= end (save-excursion (goto-char end) (line-beginning-position))))
                  (1- end)
                end)))
    (clang_format--format
     (list (format "--lines=%d:%d" (line-number-at-pos start t) (line-number-at-pos last t))))))

(defun clang_format--before-save ()
  "Format the buffer; no fault keeps it from being saved."
  (condition-case fault
      (clang_format-buffer)
    (error (message "clang_format: %s" (error-message-string fault)))))

;;;###autoload
(define-minor-mode clang_format-on-save-mode
  "Format the buffer whenever it is saved."
  :lighter " cf"
  (if clang_format-on-save-mode
      (add-hook 'before-save-hook #'clang_format--before-save nil t)
    (remove-hook 'before-save-hook #'clang_format--before-save t)))

(provide 'clang_format)
;;; clang_format.el ends here
