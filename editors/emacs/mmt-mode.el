;;; mmt-mode.el --- the modules that mmt checks, in .elf files  -*- lexical-binding: t -*-

;; Load this file and open an .elf file. M-x compile with `./mmt causes FOLDER' lists the causes of refusals, and M-x next-error goes
;; to them: the lines have the form that Emacs knows by itself.

;;; Code:

(defconst mmt-mode-name "[^] \t\n\v\f\r:.()[{}%\"]+"
  "A name: a run of characters that are neither white space nor special.")

(defvar mmt-mode-syntax-table
  (let ((table (make-syntax-table)))
    (dolist (character (append "!#$&'*+,-/;<=>?@\\^_`|~" nil))
      (modify-syntax-entry character "_" table))
    (dolist (character (append ":.%\"" nil))
      (modify-syntax-entry character "." table))
    (modify-syntax-entry ?\n ">" table)
    (dolist (pair '("()" "[]" "{}"))
      (modify-syntax-entry (aref pair 0) (string ?\( (aref pair 1)) table)
      (modify-syntax-entry (aref pair 1) (string ?\) (aref pair 0)) table))
    table)
  "The classes of characters in the modules of mmt.")

(defun mmt-mode-comment-end (limit)
  "Go behind the end of the comment in braces in front of point, which may have others in it, or to LIMIT."
  (let ((depth 1))
    (while (and (> depth 0) (re-search-forward "%{\\|}%" limit 'move))
      (setq depth (if (eq (char-before) ?{) (1+ depth) (1- depth))))))

(defun mmt-mode-propertize (start end)
  "Mark the edges of the comments between START and END."
  (goto-char start)
  (while (re-search-forward "%[{.]\\|%[ \t%]\\|%$" end t)
    (let ((begin (match-beginning 0)) (kind (char-before)))
      (unless (nth 4 (save-excursion (syntax-ppss begin)))
        (if (not (memq kind '(?{ ?.)))
            (progn
              (put-text-property begin (1+ begin) 'syntax-table (string-to-syntax "<"))
              (end-of-line))
          ;; (the sign %. ends the input)
          (if (eq kind ?.) (goto-char (point-max)) (mmt-mode-comment-end (point-max)))
          (put-text-property begin (1+ begin) 'syntax-table (string-to-syntax "!"))
          (put-text-property (1- (point)) (point) 'syntax-table (string-to-syntax "!")))))))

(defconst mmt-mode-keywords
  (let ((word (concat "%\\(?:sig\\|view\\|include\\|struct\\)\\_>")))
    `((,word . font-lock-keyword-face)
      (,(concat "%" mmt-mode-name) . font-lock-warning-face)
      (,(concat "%\\(?:sig\\|view\\)[ \t]+\\(" mmt-mode-name "\\)") 1 font-lock-type-face)
      (":=" . font-lock-builtin-face)
      ("\\_<\\(?:type\\|->\\|<-\\|=\\|_\\)\\_>" . font-lock-builtin-face)
      (,(concat "^[ \t]*\\(" mmt-mode-name "\\(?:\\." mmt-mode-name "\\)*\\)[ \t]*:") 1 font-lock-function-name-face)))
  "What is shown in colours.")

;;;###autoload
(define-derived-mode mmt-mode prog-mode "mmt"
  "A mode for the modules that mmt checks."
  (setq-local comment-start "% ")
  (setq-local comment-end "")
  (setq-local comment-start-skip "%+[ \t]*")
  (setq-local syntax-propertize-function #'mmt-mode-propertize)
  (setq-local parse-sexp-lookup-properties t)
  (setq-local font-lock-defaults '(mmt-mode-keywords)))

;;;###autoload
(add-to-list 'auto-mode-alist '("\\.elf\\'" . mmt-mode))

(provide 'mmt-mode)
;;; mmt-mode.el ends here
