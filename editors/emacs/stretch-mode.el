;;; stretch-mode.el --- decks of stretch  -*- lexical-binding: t -*-

;; Column 1 tells the kind of a card, columns 2 to 9 its name, 10 to 72 its statement.

;;; Code:

(defconst stretch-font-lock-keywords
  '(("^\\*.*$" 0 font-lock-comment-face)
    ("^/[^ \n]*" 0 font-lock-preprocessor-face)
    ("^[^\n]\\{72\\}\\([^\n]+\\)$" 1 font-lock-warning-face t)
    ("\t" 0 font-lock-warning-face t)
    (";.*$" 0 font-lock-comment-face)
    ("'[^'\n]*'" 0 font-lock-string-face)
    ("^ \\([^ \n]\\{1,8\\}\\)" 1 font-lock-variable-name-face)
    ("^ [^\n]\\{8\\}\\(DD\\|XW\\|DR\\|SYN\\|SLC\\|END\\) *\\(?:[(,;]\\|$\\)" 1 font-lock-preprocessor-face)
    ("^ [^\n]\\{8\\}\\([^ ,(;\n]+\\)" 1 font-lock-keyword-face)
    ("([ ]*\\(?:BU?\\|DU?\\|N\\|U\\|IM\\|V[+-]I\\(?:CR?\\)?\\)\\(?:,[ 0-9]+\\)\\{0,2\\})" 0 font-lock-type-face)
    ("\\$[A-Z0-9]+" 0 font-lock-builtin-face)
    ("\\_<\\(?:0x[0-9A-F]+\\|[0-9]+\\(?:\\.[0-9]+\\)?\\)\\_>" 0 font-lock-constant-face))
  "What is shown in which face.")

(defvar stretch-mode-syntax-table
  (let ((table (make-syntax-table)))
    (modify-syntax-entry ?' "." table)
    (modify-syntax-entry ?\" "." table)
    (modify-syntax-entry ?$ "_" table)
    (modify-syntax-entry ?. "_" table)
    table)
  "Quotes begin no string, and symbols of the machine are words.")

(defun stretch-tab ()
  "Insert blanks up to column 10, or from there on to column 18, 26 and so on."
  (interactive)
  (let ((column (current-column)))
    (insert (make-string (- (if (< column 9) 9 (+ column (- 8 (% (- column 9) 8)))) column) ?\s))))

(defconst stretch-home (file-name-directory (file-truename (or load-file-name buffer-file-name)))
  "Where this file stands.")

(defun stretch-why ()
  "The command that looks at a deck: installed, or that of the repository."
  (if (executable-find "stretch-why") "stretch-why"
    (shell-quote-argument (expand-file-name "../../tools/why" stretch-home))))

(defvar stretch-mode-map
  (let ((map (make-sparse-keymap)))
    (define-key map (kbd "TAB") #'stretch-tab)
    map)
  "Keys of decks.")

;;;###autoload
(define-derived-mode stretch-mode prog-mode "Stretch"
  "Decks of stretch: the columns of a card."
  (setq-local font-lock-defaults '(stretch-font-lock-keywords t t))
  (setq-local comment-start "; ")
  (setq-local comment-start-skip ";+ *")
  (setq-local indent-tabs-mode nil)
  (setq-local indent-line-function #'ignore)
  (setq-local fill-column 72)
  (when buffer-file-name
    (setq-local compile-command (concat (stretch-why) " --lines " (shell-quote-argument buffer-file-name))))
  (when (fboundp 'display-fill-column-indicator-mode)
    (display-fill-column-indicator-mode 1)))

;;;###autoload
(add-to-list 'auto-mode-alist '("\\(?:\\.deck\\|/deck\\.txt\\)\\'" . stretch-mode))

(provide 'stretch-mode)
;;; stretch-mode.el ends here
