(set-logic QF_BV)
(define-sort |top_s| () (_ BitVec 25))
(define-fun |top_is| ((state |top_s|)) Bool (= ((_ extract 0 0) state) #b1))
(define-fun |top#0| ((state |top_s|)) (_ BitVec 8) ((_ extract 8 1) state)) ; \a
(define-fun |top_n a| ((state |top_s|)) (_ BitVec 8) (|top#0| state))
(define-fun |top#1| ((state |top_s|)) (_ BitVec 8) ((_ extract 16 9) state)) ; \b
(define-fun |top_n b| ((state |top_s|)) (_ BitVec 8) (|top#1| state))
(define-fun |top#2| ((state |top_s|)) (_ BitVec 8) ((_ extract 24 17) state)) ; \c
(define-fun |top_n c| ((state |top_s|)) (_ BitVec 8) (|top#2| state))
(define-fun |top#3| ((state |top_s|)) (_ BitVec 4) (bvxor ((_ extract 3 0) (|top#0| state)) ((_ extract 7 4) (|top#0| state)))) ; $reduce_xor$choose/unsat_parity.v:4$14.genblk1.folded
(define-fun |top#4| ((state |top_s|)) (_ BitVec 2) (bvxor ((_ extract 1 0) (|top#3| state)) ((_ extract 3 2) (|top#3| state)))) ; $techmap$reduce_xor$choose/unsat_parity.v:4$14.$reduce_xor$../../examples/btor2/list.v:101$44.genblk1.folded
(define-fun |top#5| ((state |top_s|)) (_ BitVec 1) (bvxor ((_ extract 0 0) (|top#4| state)) ((_ extract 1 1) (|top#4| state)))) ; $reduce_xor$choose/unsat_parity.v:4$14_Y
(define-fun |top#6| ((state |top_s|)) (_ BitVec 1) (bvnot (|top#5| state))) ; $0$formal$choose/unsat_parity.v:3$1_CHECK[0:0]$6
(define-fun |top_u 0| ((state |top_s|)) Bool (or (= ((_ extract 0 0) (|top#6| state)) #b1) (not true))) ; $assume$choose/unsat_parity.v:3$24
(define-fun |top#7| ((state |top_s|)) (_ BitVec 4) (bvxor ((_ extract 3 0) (|top#1| state)) ((_ extract 7 4) (|top#1| state)))) ; $reduce_xor$choose/unsat_parity.v:5$16.genblk1.folded
(define-fun |top#8| ((state |top_s|)) (_ BitVec 2) (bvxor ((_ extract 1 0) (|top#7| state)) ((_ extract 3 2) (|top#7| state)))) ; $techmap$reduce_xor$choose/unsat_parity.v:5$16.$reduce_xor$../../examples/btor2/list.v:101$44.genblk1.folded
(define-fun |top#9| ((state |top_s|)) (_ BitVec 1) (bvxor ((_ extract 0 0) (|top#8| state)) ((_ extract 1 1) (|top#8| state)))) ; $reduce_xor$choose/unsat_parity.v:5$16_Y
(define-fun |top#10| ((state |top_s|)) (_ BitVec 1) (bvnot (|top#9| state))) ; $0$formal$choose/unsat_parity.v:4$2_CHECK[0:0]$8
(define-fun |top_u 1| ((state |top_s|)) Bool (or (= ((_ extract 0 0) (|top#10| state)) #b1) (not true))) ; $assume$choose/unsat_parity.v:4$25
(define-fun |top#11| ((state |top_s|)) (_ BitVec 4) (bvxor ((_ extract 3 0) (|top#2| state)) ((_ extract 7 4) (|top#2| state)))) ; $reduce_xor$choose/unsat_parity.v:6$18.genblk1.folded
(define-fun |top#12| ((state |top_s|)) (_ BitVec 2) (bvxor ((_ extract 1 0) (|top#11| state)) ((_ extract 3 2) (|top#11| state)))) ; $techmap$reduce_xor$choose/unsat_parity.v:6$18.$reduce_xor$../../examples/btor2/list.v:101$44.genblk1.folded
(define-fun |top#13| ((state |top_s|)) (_ BitVec 1) (bvxor ((_ extract 0 0) (|top#12| state)) ((_ extract 1 1) (|top#12| state)))) ; $reduce_xor$choose/unsat_parity.v:6$18_Y
(define-fun |top#14| ((state |top_s|)) (_ BitVec 1) (bvnot (|top#13| state))) ; $0$formal$choose/unsat_parity.v:5$3_CHECK[0:0]$10
(define-fun |top_u 2| ((state |top_s|)) Bool (or (= ((_ extract 0 0) (|top#14| state)) #b1) (not true))) ; $assume$choose/unsat_parity.v:5$26
(define-fun |top#15| ((state |top_s|)) (_ BitVec 8) (bvxor (|top#0| state) (|top#1| state))) ; $xor$choose/unsat_parity.v:7$20_Y
(define-fun |top#16| ((state |top_s|)) (_ BitVec 8) (bvxor (|top#15| state) (|top#2| state))) ; $xor$choose/unsat_parity.v:7$21_Y
(define-fun |top#17| ((state |top_s|)) (_ BitVec 4) (bvxor ((_ extract 3 0) (|top#16| state)) ((_ extract 7 4) (|top#16| state)))) ; $reduce_xor$choose/unsat_parity.v:7$22.genblk1.folded
(define-fun |top#18| ((state |top_s|)) (_ BitVec 2) (bvxor ((_ extract 1 0) (|top#17| state)) ((_ extract 3 2) (|top#17| state)))) ; $techmap$reduce_xor$choose/unsat_parity.v:7$22.$reduce_xor$../../examples/btor2/list.v:101$44.genblk1.folded
(define-fun |top#19| ((state |top_s|)) (_ BitVec 1) (bvxor ((_ extract 0 0) (|top#18| state)) ((_ extract 1 1) (|top#18| state)))) ; $0$formal$choose/unsat_parity.v:6$4_CHECK[0:0]$12
(define-fun |top_u 3| ((state |top_s|)) Bool (or (= ((_ extract 0 0) (|top#19| state)) #b1) (not true))) ; $assume$choose/unsat_parity.v:6$27
(define-fun |top_a| ((state |top_s|)) Bool true)
(define-fun |top_u| ((state |top_s|)) Bool (and
  (|top_u 0| state)
  (|top_u 1| state)
  (|top_u 2| state)
  (|top_u 3| state)
))
(define-fun |top_i| ((state |top_s|)) Bool true)
(define-fun |top_h| ((state |top_s|)) Bool true)
(define-fun |top_t| ((state |top_s|) (next_state |top_s|)) Bool true) ; end of module top
(declare-fun s () |top_s|)
(assert (|top_u| s))
(check-sat)
