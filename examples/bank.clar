(define-public (save (n uint)) (contract-call? .vault put n))
(define-public (spend (n uint)) (contract-call? .vault take n))
