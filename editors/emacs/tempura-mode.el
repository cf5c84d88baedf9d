;;; tempura-mode.el --- Mode for tempura programs -*- lexical-binding: t -*-

;;; Commentary:

;; Colours, comments and a simple indentation for programs of tempura, executable interval temporal logic.  `M-x compile'
;; runs the program in the buffer, and the place where its source is refused is one that `next-error' goes to.

;;; Code:

(require 'compile)

(defvar tempura-mode-syntax-table
  (let ((table (make-syntax-table)))
    ;; comments stand between /* and the next */
    (modify-syntax-entry ?/ ". 14" table)
    (modify-syntax-entry ?* ". 23" table)
    (modify-syntax-entry ?_ "w" table)
    ;; operators; there are no strings
    (dolist (sign '(?+ ?- ?= ?< ?> ?| ?\; ?: ?, ?. ?\" ?'))
      (modify-syntax-entry sign "." table))
    table)
  "Syntax table of `tempura-mode'.")

(defconst tempura-control-words
  '("if" "then" "else" "while" "do" "repeat" "until" "for" "forall" "exists" "define" "run")
  "Words that lead a phrase, or a part of one.")

(defconst tempura-temporal-words
  '("empty" "more" "skip" "next" "always" "keep" "fin" "halt" "stable" "sometimes" "gets" "len" "list"
    "input" "display" "proj")
  "Words that speak of time, of inputs and of displays.")

(defconst tempura-operator-words
  '("and" "or" "not" "div" "mod")
  "Operators that are written as words.")

(defconst tempura-truth-values
  '("true" "false")
  "The truth values.")

(defconst tempura-font-lock-keywords
  (list
   (cons (regexp-opt tempura-control-words 'words) 'font-lock-keyword-face)
   (cons (regexp-opt tempura-temporal-words 'words) 'font-lock-builtin-face)
   (cons (regexp-opt tempura-operator-words 'words) 'font-lock-keyword-face)
   (cons (regexp-opt tempura-truth-values 'words) 'font-lock-constant-face)
   ;; the first rule that fits a name decides: a lower-case name in front of a parenthesis is a call
   '("\\<\\([a-z][A-Za-z0-9_]*\\)\\>[ \t\n]*(" 1 font-lock-function-name-face)
   '("\\<[A-Z][A-Za-z0-9_]*\\>" . font-lock-variable-name-face)
   '("\\<[a-z][A-Za-z0-9_]*\\>" . font-lock-type-face)
   '("\\<[0-9]+\\>" . font-lock-constant-face))
  "What is coloured: words, calls, variables of both kinds, and numbers.")

(defvar tempura-indent-step 2
  "How far `tempura-mode' indents for each level.")

(defun tempura-at-margin-p ()
  "Whether what stands here begins a definition or the run.
That is so of their words, and of all that stands behind a full stop."
  (or (looking-at "\\(define\\|run\\)\\>")
      (save-excursion
        (forward-comment (- (point)))
        (or (bobp) (eq (char-before) ?.)))))

(defun tempura-depth ()
  "Answer how many parentheses are open here.
Those that are closed at this place do not count."
  (save-excursion
    (let ((depth (car (syntax-ppss))))
      (while (looking-at "[])}]")
        (setq depth (1- depth))
        (forward-char))
      (max 0 depth))))

(defun tempura-indentation ()
  "Answer how far the current line is to be indented.
A definition and the run begin at the margin.  Any other line has a
step, and one more for each parenthesis that is open."
  (save-excursion
    (back-to-indentation)
    (if (tempura-at-margin-p)
        0
      (* tempura-indent-step (1+ (tempura-depth))))))

(defun tempura-indent-line ()
  "Indent the current line; a line inside of a comment is left as it is."
  (interactive)
  (unless (nth 4 (save-excursion (syntax-ppss (line-beginning-position))))
    (let ((behind (- (point) (save-excursion (back-to-indentation) (point)))))
      (indent-line-to (tempura-indentation))
      (when (> behind 0)
        (forward-char behind)))))

(defvar tempura-command "tempura"
  "The command that runs programs, or its path.")

(defun tempura-refused-file ()
  "Answer the file whose source the line at hand says to be refused.
A line `== FILE' stands in front of what its run prints."
  (save-match-data
    (save-excursion
      (when (re-search-backward "^== \\(.*\\)$" nil t)
        (match-string-no-properties 1)))))

(add-to-list 'compilation-error-regexp-alist-alist
             '(tempura "^source refused: line \\([0-9]+\\) column \\([0-9]+\\): .*$"
                       tempura-refused-file 1 2))
(add-to-list 'compilation-error-regexp-alist 'tempura)

;;;###autoload
(define-derived-mode tempura-mode prog-mode "Tempura"
  "Mode for programs of tempura."
  (setq-local comment-start "/* ")
  (setq-local comment-end " */")
  (setq-local comment-start-skip "/\\*+[ \t]*")
  (setq-local comment-end-skip "[ \t]*\\*+/")
  (setq-local indent-line-function #'tempura-indent-line)
  (when buffer-file-name
    (setq-local compile-command
                (concat tempura-command " --cases -- "
                        (shell-quote-argument (file-name-nondirectory buffer-file-name)))))
  (setq-local font-lock-defaults '(tempura-font-lock-keywords)))

;;;###autoload
(add-to-list 'auto-mode-alist '("\\.tempura\\'" . tempura-mode))

(provide 'tempura-mode)

;;; tempura-mode.el ends here
