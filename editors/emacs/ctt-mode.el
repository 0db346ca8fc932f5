;;; ctt-mode.el --- Modules of Cubical Type Theory, as ctt reads them -*- lexical-binding: t -*-

;; Put this folder on `load-path', and (require 'ctt-mode) into the init file. Files that end in
;; .ctt are then coloured. C-c C-c checks the module, C-c C-n asks for a name and prints its normal
;; form, and C-x ` goes to the place of a refusal: a byte becomes a line and a column.

;;; Code:

(require 'compile)

(defgroup ctt nil "Modules of Cubical Type Theory." :group 'languages)

(defcustom ctt-program "ctt" "The program that checks modules." :type 'string)

(defconst ctt-keywords
  '("module" "where" "import" "let" "in" "PathP" "comp" "fill" "transport" "Glue" "glue" "unglue"
    "U"))

(defconst ctt-refused
  '("data" "hdata" "split" "mutual" "undefined" "opaque" "transparent" "transparent_all"))

(defconst ctt-built-in '("nat" "zero" "suc" "natrec"))

(defvar ctt-mode-syntax-table
  (let ((table (make-syntax-table)))
    (modify-syntax-entry ?_ "w" table)
    (modify-syntax-entry ?' "w" table)
    (modify-syntax-entry ?- ". 123" table)
    (modify-syntax-entry ?\n ">" table)
    (modify-syntax-entry ?\{ "(}1c" table)
    (modify-syntax-entry ?\} "){4c" table)
    (modify-syntax-entry ?\\ "." table)
    (modify-syntax-entry ?/ "." table)
    (modify-syntax-entry ?\" "." table)
    table)
  "Words and comments of `ctt-mode'; comments in braces do not nest.")

(defconst ctt-font-lock-keywords
  `((,(regexp-opt ctt-keywords 'words) . font-lock-keyword-face)
    (,(regexp-opt ctt-refused 'words) . font-lock-warning-face)
    (,(regexp-opt ctt-built-in 'words) . font-lock-builtin-face)
    ("^\\s-*\\([[:alpha:]_][[:alnum:]_']*\\)\\(?:\\s-*([^()]*\\(?:([^()]*)[^()]*\\)*)\\)*\\s-*:"
     1 font-lock-function-name-face)
    ("<\\([[:alpha:]_][[:alnum:]_' ]*\\)>" 1 font-lock-variable-name-face)
    ("(\\([[:alpha:]_][[:alnum:]_']*\\)\\s-*=\\s-*[01])" 1 font-lock-variable-name-face)
    ("->\\|/\\\\\\|\\\\/\\|[\\@*]" . font-lock-operator-face)))

(unless (facep 'font-lock-operator-face)
  (defface font-lock-operator-face '((t :inherit font-lock-type-face)) "Signs."))
(defvar font-lock-operator-face 'font-lock-operator-face)

(defun ctt--line-of (path at)
  "The line and the column, both from 1, of the byte AT of the file PATH."
  (when (file-readable-p path)
    (with-temp-buffer
      (set-buffer-multibyte nil)
      (insert-file-contents-literally path)
      (goto-char (min (point-max) (1+ at)))
      (cons (line-number-at-pos)
            (1+ (length (decode-coding-string
                         (buffer-substring-no-properties (line-beginning-position) (point))
                         'utf-8)))))))

(defun ctt--place ()
  "The line and the column that the last match of an answer says."
  (let ((at (string-to-number (match-string 2)))
        (path (expand-file-name (match-string 3))))
    (save-match-data (ctt--line-of path at))))

(defconst ctt-answer "^\\(?:no: \\|spent: \\)\\(.*\\) at \\([0-9]+\\) in \\(.*\\.ctt\\)$")

(define-compilation-mode ctt-answers-mode "ctt"
  "What ctt answers, with places that lead to the text."
  (setq-local compilation-error-screen-columns nil)
  (setq-local compilation-first-column 1)
  (setq-local compilation-error-regexp-alist
              `((,ctt-answer 3 ,(lambda () (car (ctt--place))) ,(lambda () (cdr (ctt--place)))))))

(defun ctt--run (&rest words)
  "Runs the program with WORDS in the folder of the buffer's file."
  (save-buffer)
  (compilation-start (mapconcat #'shell-quote-argument (cons ctt-program words) " ")
                     #'ctt-answers-mode))

(defun ctt--module ()
  (file-name-base (or buffer-file-name (user-error "This buffer has no file"))))

(defun ctt-check ()
  "Checks the module of this buffer."
  (interactive)
  (ctt--run "check" (ctt--module)))

(defun ctt-normal (name)
  "Prints the normal form of the definition NAME of this buffer's module."
  (interactive (list (read-string "Normal form of: " (thing-at-point 'symbol t))))
  (ctt--run "normal" (ctt--module) name))

(defvar ctt-mode-map
  (let ((map (make-sparse-keymap)))
    (define-key map (kbd "C-c C-c") #'ctt-check)
    (define-key map (kbd "C-c C-n") #'ctt-normal)
    map))

;;;###autoload
(define-derived-mode ctt-mode prog-mode "ctt"
  "Modules of Cubical Type Theory."
  (setq-local comment-start "-- ")
  (setq-local comment-start-skip "\\(?:--+\\|{-\\)\\s-*")
  (setq-local comment-end "")
  (setq-local indent-tabs-mode nil)
  (setq-local font-lock-defaults '(ctt-font-lock-keywords)))

;;;###autoload
(add-to-list 'auto-mode-alist '("\\.ctt\\'" . ctt-mode))

(provide 'ctt-mode)
;;; ctt-mode.el ends here
