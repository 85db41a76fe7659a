(set-logic QF_BV)
(define-sort |top_s| () (_ BitVec 65))
(define-fun |top_is| ((state |top_s|)) Bool (= ((_ extract 0 0) state) #b1))
(define-fun |top#0| ((state |top_s|)) (_ BitVec 8) ((_ extract 8 1) state)) ; \d0
(define-fun |top_n d0| ((state |top_s|)) (_ BitVec 8) (|top#0| state))
(define-fun |top#1| ((state |top_s|)) (_ BitVec 8) ((_ extract 16 9) state)) ; \d1
(define-fun |top_n d1| ((state |top_s|)) (_ BitVec 8) (|top#1| state))
(define-fun |top#2| ((state |top_s|)) (_ BitVec 8) ((_ extract 24 17) state)) ; \d2
(define-fun |top_n d2| ((state |top_s|)) (_ BitVec 8) (|top#2| state))
(define-fun |top#3| ((state |top_s|)) (_ BitVec 8) ((_ extract 32 25) state)) ; \d3
(define-fun |top_n d3| ((state |top_s|)) (_ BitVec 8) (|top#3| state))
(define-fun |top#4| ((state |top_s|)) (_ BitVec 8) ((_ extract 40 33) state)) ; \len
(define-fun |top_n len| ((state |top_s|)) (_ BitVec 8) (|top#4| state))
(define-fun |top#5| ((state |top_s|)) (_ BitVec 8) ((_ extract 48 41) state)) ; \mark
(define-fun |top_n mark| ((state |top_s|)) (_ BitVec 8) (|top#5| state))
(define-fun |top#6| ((state |top_s|)) (_ BitVec 8) ((_ extract 56 49) state)) ; \par
(define-fun |top_n par| ((state |top_s|)) (_ BitVec 8) (|top#6| state))
(define-fun |top#7| ((state |top_s|)) (_ BitVec 8) ((_ extract 64 57) state)) ; \sum
(define-fun |top_n sum| ((state |top_s|)) (_ BitVec 8) (|top#7| state))
(define-fun |top#8| ((state |top_s|)) Bool (bvult #b01000000 (|top#0| state))) ; $gt$choose/frame_sum.v:11$41_Y
(define-fun |top#9| ((state |top_s|)) Bool (bvult (|top#0| state) (|top#1| state))) ; $gt$choose/frame_sum.v:11$42_Y
(define-fun |top#10| ((state |top_s|)) (_ BitVec 1) (bvand (ite (|top#8| state) #b1 #b0) (ite (|top#9| state) #b1 #b0))) ; $logic_and$choose/frame_sum.v:11$43_Y
(define-fun |top#11| ((state |top_s|)) Bool (bvult (|top#1| state) (|top#2| state))) ; $gt$choose/frame_sum.v:11$44_Y
(define-fun |top#12| ((state |top_s|)) (_ BitVec 1) (bvand (|top#10| state) (ite (|top#11| state) #b1 #b0))) ; $logic_and$choose/frame_sum.v:11$45_Y
(define-fun |top#13| ((state |top_s|)) Bool (bvult (|top#2| state) (|top#3| state))) ; $gt$choose/frame_sum.v:11$46_Y
(define-fun |top#14| ((state |top_s|)) (_ BitVec 1) (bvand (|top#12| state) (ite (|top#13| state) #b1 #b0))) ; $0$formal$choose/frame_sum.v:10$6_CHECK[0:0]$31
(define-fun |top_u 0| ((state |top_s|)) Bool (or (= ((_ extract 0 0) (|top#14| state)) #b1) (not true))) ; $assume$choose/frame_sum.v:10$54
(define-fun |top#15| ((state |top_s|)) Bool (bvult #b11000000 (|top#7| state))) ; $0$formal$choose/frame_sum.v:11$7_CHECK[0:0]$33
(define-fun |top_u 1| ((state |top_s|)) Bool (or (|top#15| state) (not true))) ; $assume$choose/frame_sum.v:11$55
(define-fun |top#16| ((state |top_s|)) Bool (= (|top#5| state) #b01111110)) ; $0$formal$choose/frame_sum.v:5$1_CHECK[0:0]$21
(define-fun |top_u 2| ((state |top_s|)) Bool (or (|top#16| state) (not true))) ; $assume$choose/frame_sum.v:5$49
(define-fun |top#17| ((state |top_s|)) Bool (= (|top#4| state) #b00000100)) ; $0$formal$choose/frame_sum.v:6$2_CHECK[0:0]$23
(define-fun |top_u 3| ((state |top_s|)) Bool (or (|top#17| state) (not true))) ; $assume$choose/frame_sum.v:6$50
(define-fun |top#18| ((state |top_s|)) (_ BitVec 8) (bvadd (|top#5| state) (|top#4| state))) ; $add$choose/frame_sum.v:3$8_Y
(define-fun |top#19| ((state |top_s|)) (_ BitVec 8) (bvadd (|top#18| state) (|top#0| state))) ; $add$choose/frame_sum.v:3$9_Y
(define-fun |top#20| ((state |top_s|)) (_ BitVec 8) (bvadd (|top#19| state) (|top#1| state))) ; $add$choose/frame_sum.v:3$10_Y
(define-fun |top#21| ((state |top_s|)) (_ BitVec 8) (bvadd (|top#20| state) (|top#2| state))) ; $add$choose/frame_sum.v:3$11_Y
(define-fun |top#22| ((state |top_s|)) (_ BitVec 8) (bvadd (|top#21| state) (|top#3| state))) ; \total
(define-fun |top#23| ((state |top_s|)) (_ BitVec 8) (bvnot (|top#22| state))) ; $not$choose/frame_sum.v:8$37_Y
(define-fun |top#24| ((state |top_s|)) Bool (= (|top#7| state) (|top#23| state))) ; $0$formal$choose/frame_sum.v:7$3_CHECK[0:0]$25
(define-fun |top_u 4| ((state |top_s|)) Bool (or (|top#24| state) (not true))) ; $assume$choose/frame_sum.v:7$51
(define-fun |top#25| ((state |top_s|)) (_ BitVec 4) (bvxor ((_ extract 3 0) (|top#7| state)) ((_ extract 7 4) (|top#7| state)))) ; $reduce_xor$choose/frame_sum.v:4$13.genblk1.folded
(define-fun |top#26| ((state |top_s|)) (_ BitVec 2) (bvxor ((_ extract 1 0) (|top#25| state)) ((_ extract 3 2) (|top#25| state)))) ; $techmap$reduce_xor$choose/frame_sum.v:4$13.$reduce_xor$../../examples/btor2/list.v:101$72.genblk1.folded
(define-fun |top#27| ((state |top_s|)) (_ BitVec 1) (bvxor ((_ extract 0 0) (|top#26| state)) ((_ extract 1 1) (|top#26| state)))) ; \parities [1]
(define-fun |top#28| ((state |top_s|)) (_ BitVec 4) (bvxor ((_ extract 3 0) (|top#3| state)) ((_ extract 7 4) (|top#3| state)))) ; $reduce_xor$choose/frame_sum.v:4$14.genblk1.folded
(define-fun |top#29| ((state |top_s|)) (_ BitVec 2) (bvxor ((_ extract 1 0) (|top#28| state)) ((_ extract 3 2) (|top#28| state)))) ; $techmap$reduce_xor$choose/frame_sum.v:4$14.$reduce_xor$../../examples/btor2/list.v:101$72.genblk1.folded
(define-fun |top#30| ((state |top_s|)) (_ BitVec 1) (bvxor ((_ extract 0 0) (|top#29| state)) ((_ extract 1 1) (|top#29| state)))) ; \parities [2]
(define-fun |top#31| ((state |top_s|)) (_ BitVec 4) (bvxor ((_ extract 3 0) (|top#2| state)) ((_ extract 7 4) (|top#2| state)))) ; $reduce_xor$choose/frame_sum.v:4$15.genblk1.folded
(define-fun |top#32| ((state |top_s|)) (_ BitVec 2) (bvxor ((_ extract 1 0) (|top#31| state)) ((_ extract 3 2) (|top#31| state)))) ; $techmap$reduce_xor$choose/frame_sum.v:4$15.$reduce_xor$../../examples/btor2/list.v:101$72.genblk1.folded
(define-fun |top#33| ((state |top_s|)) (_ BitVec 1) (bvxor ((_ extract 0 0) (|top#32| state)) ((_ extract 1 1) (|top#32| state)))) ; \parities [3]
(define-fun |top#34| ((state |top_s|)) (_ BitVec 4) (bvxor ((_ extract 3 0) (|top#1| state)) ((_ extract 7 4) (|top#1| state)))) ; $reduce_xor$choose/frame_sum.v:4$16.genblk1.folded
(define-fun |top#35| ((state |top_s|)) (_ BitVec 2) (bvxor ((_ extract 1 0) (|top#34| state)) ((_ extract 3 2) (|top#34| state)))) ; $techmap$reduce_xor$choose/frame_sum.v:4$16.$reduce_xor$../../examples/btor2/list.v:101$72.genblk1.folded
(define-fun |top#36| ((state |top_s|)) (_ BitVec 1) (bvxor ((_ extract 0 0) (|top#35| state)) ((_ extract 1 1) (|top#35| state)))) ; \parities [4]
(define-fun |top#37| ((state |top_s|)) (_ BitVec 4) (bvxor ((_ extract 3 0) (|top#0| state)) ((_ extract 7 4) (|top#0| state)))) ; $reduce_xor$choose/frame_sum.v:4$17.genblk1.folded
(define-fun |top#38| ((state |top_s|)) (_ BitVec 2) (bvxor ((_ extract 1 0) (|top#37| state)) ((_ extract 3 2) (|top#37| state)))) ; $techmap$reduce_xor$choose/frame_sum.v:4$17.$reduce_xor$../../examples/btor2/list.v:101$72.genblk1.folded
(define-fun |top#39| ((state |top_s|)) (_ BitVec 1) (bvxor ((_ extract 0 0) (|top#38| state)) ((_ extract 1 1) (|top#38| state)))) ; \parities [5]
(define-fun |top#40| ((state |top_s|)) (_ BitVec 4) (bvxor ((_ extract 3 0) (|top#4| state)) ((_ extract 7 4) (|top#4| state)))) ; $reduce_xor$choose/frame_sum.v:4$18.genblk1.folded
(define-fun |top#41| ((state |top_s|)) (_ BitVec 2) (bvxor ((_ extract 1 0) (|top#40| state)) ((_ extract 3 2) (|top#40| state)))) ; $techmap$reduce_xor$choose/frame_sum.v:4$18.$reduce_xor$../../examples/btor2/list.v:101$72.genblk1.folded
(define-fun |top#42| ((state |top_s|)) (_ BitVec 1) (bvxor ((_ extract 0 0) (|top#41| state)) ((_ extract 1 1) (|top#41| state)))) ; \parities [6]
(define-fun |top#43| ((state |top_s|)) (_ BitVec 4) (bvxor ((_ extract 3 0) (|top#5| state)) ((_ extract 7 4) (|top#5| state)))) ; $reduce_xor$choose/frame_sum.v:4$19.genblk1.folded
(define-fun |top#44| ((state |top_s|)) (_ BitVec 2) (bvxor ((_ extract 1 0) (|top#43| state)) ((_ extract 3 2) (|top#43| state)))) ; $techmap$reduce_xor$choose/frame_sum.v:4$19.$reduce_xor$../../examples/btor2/list.v:101$72.genblk1.folded
(define-fun |top#45| ((state |top_s|)) (_ BitVec 1) (bvxor ((_ extract 0 0) (|top#44| state)) ((_ extract 1 1) (|top#44| state)))) ; \parities [7]
(define-fun |top#46| ((state |top_s|)) Bool (= (|top#6| state) (concat (|top#45| state) (concat (|top#42| state) (concat (|top#39| state) (concat (|top#36| state) (concat (|top#33| state) (concat (|top#30| state) (concat (|top#27| state) #b1))))))))) ; $0$formal$choose/frame_sum.v:8$4_CHECK[0:0]$27
(define-fun |top_u 5| ((state |top_s|)) Bool (or (|top#46| state) (not true))) ; $assume$choose/frame_sum.v:8$52
(define-fun |top#47| ((state |top_s|)) Bool (= (|top#6| state) #b01101101)) ; $0$formal$choose/frame_sum.v:9$5_CHECK[0:0]$29
(define-fun |top_u 6| ((state |top_s|)) Bool (or (|top#47| state) (not true))) ; $assume$choose/frame_sum.v:9$53
(define-fun |top_a| ((state |top_s|)) Bool true)
(define-fun |top_u| ((state |top_s|)) Bool (and
  (|top_u 0| state)
  (|top_u 1| state)
  (|top_u 2| state)
  (|top_u 3| state)
  (|top_u 4| state)
  (|top_u 5| state)
  (|top_u 6| state)
))
(define-fun |top_i| ((state |top_s|)) Bool true)
(define-fun |top_h| ((state |top_s|)) Bool true)
(define-fun |top_t| ((state |top_s|) (next_state |top_s|)) Bool true) ; end of module top
(declare-fun s () |top_s|)
(assert (|top_u| s))
(check-sat)
