(set-logic QF_BV)
(define-sort |top_s| () (_ BitVec 81))
(define-fun |top_is| ((state |top_s|)) Bool (= ((_ extract 0 0) state) #b1))
(define-fun |top#0| ((state |top_s|)) (_ BitVec 64) ((_ extract 64 1) state)) ; \f
(define-fun |top_n f| ((state |top_s|)) (_ BitVec 64) (|top#0| state))
(define-fun |top#1| ((state |top_s|)) (_ BitVec 8) ((_ extract 72 65) state)) ; \first
(define-fun |top_n first| ((state |top_s|)) (_ BitVec 8) (|top#1| state))
(define-fun |top#2| ((state |top_s|)) (_ BitVec 8) ((_ extract 80 73) state)) ; \last
(define-fun |top_n last| ((state |top_s|)) (_ BitVec 8) (|top#2| state))
(define-fun |top#3| ((state |top_s|)) Bool (distinct ((_ extract 7 0) (|top#0| state)) (|top#1| state))) ; $logic_and$measure/frame_escape.v:11$68.a
(define-fun |top#4| ((state |top_s|)) Bool (distinct ((_ extract 7 0) (|top#0| state)) #b01111101)) ; $logic_and$measure/frame_escape.v:11$68.b
(define-fun |top#5| ((state |top_s|)) (_ BitVec 1) (bvand (ite (|top#3| state) #b1 #b0) (ite (|top#4| state) #b1 #b0))) ; $0$formal$measure/frame_escape.v:10$4_CHECK[0:0]$27
(define-fun |top_u 0| ((state |top_s|)) Bool (or (= ((_ extract 0 0) (|top#5| state)) #b1) (not true))) ; $assume$measure/frame_escape.v:10$116
(define-fun |top#6| ((state |top_s|)) Bool (distinct ((_ extract 15 8) (|top#0| state)) (|top#1| state))) ; $logic_and$measure/frame_escape.v:11$74.a
(define-fun |top#7| ((state |top_s|)) Bool (distinct ((_ extract 15 8) (|top#0| state)) #b01111101)) ; $logic_and$measure/frame_escape.v:11$74.b
(define-fun |top#8| ((state |top_s|)) (_ BitVec 1) (bvand (ite (|top#6| state) #b1 #b0) (ite (|top#7| state) #b1 #b0))) ; $0$formal$measure/frame_escape.v:10$6_CHECK[0:0]$31
(define-fun |top_u 1| ((state |top_s|)) Bool (or (= ((_ extract 0 0) (|top#8| state)) #b1) (not true))) ; $assume$measure/frame_escape.v:10$118
(define-fun |top#9| ((state |top_s|)) Bool (distinct ((_ extract 23 16) (|top#0| state)) (|top#1| state))) ; $logic_and$measure/frame_escape.v:11$80.a
(define-fun |top#10| ((state |top_s|)) Bool (distinct ((_ extract 23 16) (|top#0| state)) #b01111101)) ; $logic_and$measure/frame_escape.v:11$80.b
(define-fun |top#11| ((state |top_s|)) (_ BitVec 1) (bvand (ite (|top#9| state) #b1 #b0) (ite (|top#10| state) #b1 #b0))) ; $0$formal$measure/frame_escape.v:10$8_CHECK[0:0]$35
(define-fun |top_u 2| ((state |top_s|)) Bool (or (= ((_ extract 0 0) (|top#11| state)) #b1) (not true))) ; $assume$measure/frame_escape.v:10$120
(define-fun |top#12| ((state |top_s|)) Bool (distinct ((_ extract 31 24) (|top#0| state)) (|top#1| state))) ; $logic_and$measure/frame_escape.v:11$86.a
(define-fun |top#13| ((state |top_s|)) Bool (distinct ((_ extract 31 24) (|top#0| state)) #b01111101)) ; $logic_and$measure/frame_escape.v:11$86.b
(define-fun |top#14| ((state |top_s|)) (_ BitVec 1) (bvand (ite (|top#12| state) #b1 #b0) (ite (|top#13| state) #b1 #b0))) ; $0$formal$measure/frame_escape.v:10$10_CHECK[0:0]$39
(define-fun |top_u 3| ((state |top_s|)) Bool (or (= ((_ extract 0 0) (|top#14| state)) #b1) (not true))) ; $assume$measure/frame_escape.v:10$122
(define-fun |top#15| ((state |top_s|)) Bool (distinct ((_ extract 39 32) (|top#0| state)) (|top#1| state))) ; $logic_and$measure/frame_escape.v:11$92.a
(define-fun |top#16| ((state |top_s|)) Bool (distinct ((_ extract 39 32) (|top#0| state)) #b01111101)) ; $logic_and$measure/frame_escape.v:11$92.b
(define-fun |top#17| ((state |top_s|)) (_ BitVec 1) (bvand (ite (|top#15| state) #b1 #b0) (ite (|top#16| state) #b1 #b0))) ; $0$formal$measure/frame_escape.v:10$12_CHECK[0:0]$43
(define-fun |top_u 4| ((state |top_s|)) Bool (or (= ((_ extract 0 0) (|top#17| state)) #b1) (not true))) ; $assume$measure/frame_escape.v:10$124
(define-fun |top#18| ((state |top_s|)) Bool (distinct ((_ extract 47 40) (|top#0| state)) (|top#1| state))) ; $logic_and$measure/frame_escape.v:11$98.a
(define-fun |top#19| ((state |top_s|)) Bool (distinct ((_ extract 47 40) (|top#0| state)) #b01111101)) ; $logic_and$measure/frame_escape.v:11$98.b
(define-fun |top#20| ((state |top_s|)) (_ BitVec 1) (bvand (ite (|top#18| state) #b1 #b0) (ite (|top#19| state) #b1 #b0))) ; $0$formal$measure/frame_escape.v:10$14_CHECK[0:0]$47
(define-fun |top_u 5| ((state |top_s|)) Bool (or (= ((_ extract 0 0) (|top#20| state)) #b1) (not true))) ; $assume$measure/frame_escape.v:10$126
(define-fun |top#21| ((state |top_s|)) Bool (distinct ((_ extract 55 48) (|top#0| state)) (|top#1| state))) ; $logic_and$measure/frame_escape.v:11$104.a
(define-fun |top#22| ((state |top_s|)) Bool (distinct ((_ extract 55 48) (|top#0| state)) #b01111101)) ; $logic_and$measure/frame_escape.v:11$104.b
(define-fun |top#23| ((state |top_s|)) (_ BitVec 1) (bvand (ite (|top#21| state) #b1 #b0) (ite (|top#22| state) #b1 #b0))) ; $0$formal$measure/frame_escape.v:10$16_CHECK[0:0]$51
(define-fun |top_u 6| ((state |top_s|)) Bool (or (= ((_ extract 0 0) (|top#23| state)) #b1) (not true))) ; $assume$measure/frame_escape.v:10$128
(define-fun |top#24| ((state |top_s|)) Bool (distinct ((_ extract 63 56) (|top#0| state)) (|top#1| state))) ; $logic_and$measure/frame_escape.v:11$110.a
(define-fun |top#25| ((state |top_s|)) Bool (distinct ((_ extract 63 56) (|top#0| state)) #b01111101)) ; $logic_and$measure/frame_escape.v:11$110.b
(define-fun |top#26| ((state |top_s|)) (_ BitVec 1) (bvand (ite (|top#24| state) #b1 #b0) (ite (|top#25| state) #b1 #b0))) ; $0$formal$measure/frame_escape.v:10$18_CHECK[0:0]$55
(define-fun |top_u 7| ((state |top_s|)) Bool (or (= ((_ extract 0 0) (|top#26| state)) #b1) (not true))) ; $assume$measure/frame_escape.v:10$130
(define-fun |top#27| ((state |top_s|)) (_ BitVec 4) (bvxor ((_ extract 3 0) (|top#0| state)) ((_ extract 7 4) (|top#0| state)))) ; $reduce_xor$measure/frame_escape.v:12$69.genblk1.folded
(define-fun |top#28| ((state |top_s|)) (_ BitVec 2) (bvxor ((_ extract 1 0) (|top#27| state)) ((_ extract 3 2) (|top#27| state)))) ; $techmap$reduce_xor$measure/frame_escape.v:12$69.$reduce_xor$../../examples/btor2/list.v:101$153.genblk1.folded
(define-fun |top#29| ((state |top_s|)) (_ BitVec 1) (bvxor ((_ extract 0 0) (|top#28| state)) ((_ extract 1 1) (|top#28| state)))) ; $reduce_xor$measure/frame_escape.v:12$69_Y
(define-fun |top#30| ((state |top_s|)) (_ BitVec 1) (bvnot (|top#29| state))) ; $0$formal$measure/frame_escape.v:12$5_CHECK[0:0]$29
(define-fun |top_u 8| ((state |top_s|)) Bool (or (= ((_ extract 0 0) (|top#30| state)) #b1) (not true))) ; $assume$measure/frame_escape.v:12$117
(define-fun |top#31| ((state |top_s|)) (_ BitVec 4) (bvxor ((_ extract 11 8) (|top#0| state)) ((_ extract 15 12) (|top#0| state)))) ; $reduce_xor$measure/frame_escape.v:12$75.genblk1.folded
(define-fun |top#32| ((state |top_s|)) (_ BitVec 2) (bvxor ((_ extract 1 0) (|top#31| state)) ((_ extract 3 2) (|top#31| state)))) ; $techmap$reduce_xor$measure/frame_escape.v:12$75.$reduce_xor$../../examples/btor2/list.v:101$153.genblk1.folded
(define-fun |top#33| ((state |top_s|)) (_ BitVec 1) (bvxor ((_ extract 0 0) (|top#32| state)) ((_ extract 1 1) (|top#32| state)))) ; $reduce_xor$measure/frame_escape.v:12$75_Y
(define-fun |top#34| ((state |top_s|)) (_ BitVec 1) (bvnot (|top#33| state))) ; $0$formal$measure/frame_escape.v:12$7_CHECK[0:0]$33
(define-fun |top_u 9| ((state |top_s|)) Bool (or (= ((_ extract 0 0) (|top#34| state)) #b1) (not true))) ; $assume$measure/frame_escape.v:12$119
(define-fun |top#35| ((state |top_s|)) (_ BitVec 4) (bvxor ((_ extract 19 16) (|top#0| state)) ((_ extract 23 20) (|top#0| state)))) ; $reduce_xor$measure/frame_escape.v:12$81.genblk1.folded
(define-fun |top#36| ((state |top_s|)) (_ BitVec 2) (bvxor ((_ extract 1 0) (|top#35| state)) ((_ extract 3 2) (|top#35| state)))) ; $techmap$reduce_xor$measure/frame_escape.v:12$81.$reduce_xor$../../examples/btor2/list.v:101$153.genblk1.folded
(define-fun |top#37| ((state |top_s|)) (_ BitVec 1) (bvxor ((_ extract 0 0) (|top#36| state)) ((_ extract 1 1) (|top#36| state)))) ; $reduce_xor$measure/frame_escape.v:12$81_Y
(define-fun |top#38| ((state |top_s|)) (_ BitVec 1) (bvnot (|top#37| state))) ; $0$formal$measure/frame_escape.v:12$9_CHECK[0:0]$37
(define-fun |top_u 10| ((state |top_s|)) Bool (or (= ((_ extract 0 0) (|top#38| state)) #b1) (not true))) ; $assume$measure/frame_escape.v:12$121
(define-fun |top#39| ((state |top_s|)) (_ BitVec 4) (bvxor ((_ extract 27 24) (|top#0| state)) ((_ extract 31 28) (|top#0| state)))) ; $reduce_xor$measure/frame_escape.v:12$87.genblk1.folded
(define-fun |top#40| ((state |top_s|)) (_ BitVec 2) (bvxor ((_ extract 1 0) (|top#39| state)) ((_ extract 3 2) (|top#39| state)))) ; $techmap$reduce_xor$measure/frame_escape.v:12$87.$reduce_xor$../../examples/btor2/list.v:101$153.genblk1.folded
(define-fun |top#41| ((state |top_s|)) (_ BitVec 1) (bvxor ((_ extract 0 0) (|top#40| state)) ((_ extract 1 1) (|top#40| state)))) ; $reduce_xor$measure/frame_escape.v:12$87_Y
(define-fun |top#42| ((state |top_s|)) (_ BitVec 1) (bvnot (|top#41| state))) ; $0$formal$measure/frame_escape.v:12$11_CHECK[0:0]$41
(define-fun |top_u 11| ((state |top_s|)) Bool (or (= ((_ extract 0 0) (|top#42| state)) #b1) (not true))) ; $assume$measure/frame_escape.v:12$123
(define-fun |top#43| ((state |top_s|)) (_ BitVec 4) (bvxor ((_ extract 35 32) (|top#0| state)) ((_ extract 39 36) (|top#0| state)))) ; $reduce_xor$measure/frame_escape.v:12$93.genblk1.folded
(define-fun |top#44| ((state |top_s|)) (_ BitVec 2) (bvxor ((_ extract 1 0) (|top#43| state)) ((_ extract 3 2) (|top#43| state)))) ; $techmap$reduce_xor$measure/frame_escape.v:12$93.$reduce_xor$../../examples/btor2/list.v:101$153.genblk1.folded
(define-fun |top#45| ((state |top_s|)) (_ BitVec 1) (bvxor ((_ extract 0 0) (|top#44| state)) ((_ extract 1 1) (|top#44| state)))) ; $reduce_xor$measure/frame_escape.v:12$93_Y
(define-fun |top#46| ((state |top_s|)) (_ BitVec 1) (bvnot (|top#45| state))) ; $0$formal$measure/frame_escape.v:12$13_CHECK[0:0]$45
(define-fun |top_u 12| ((state |top_s|)) Bool (or (= ((_ extract 0 0) (|top#46| state)) #b1) (not true))) ; $assume$measure/frame_escape.v:12$125
(define-fun |top#47| ((state |top_s|)) (_ BitVec 4) (bvxor ((_ extract 43 40) (|top#0| state)) ((_ extract 47 44) (|top#0| state)))) ; $reduce_xor$measure/frame_escape.v:12$99.genblk1.folded
(define-fun |top#48| ((state |top_s|)) (_ BitVec 2) (bvxor ((_ extract 1 0) (|top#47| state)) ((_ extract 3 2) (|top#47| state)))) ; $techmap$reduce_xor$measure/frame_escape.v:12$99.$reduce_xor$../../examples/btor2/list.v:101$153.genblk1.folded
(define-fun |top#49| ((state |top_s|)) (_ BitVec 1) (bvxor ((_ extract 0 0) (|top#48| state)) ((_ extract 1 1) (|top#48| state)))) ; $reduce_xor$measure/frame_escape.v:12$99_Y
(define-fun |top#50| ((state |top_s|)) (_ BitVec 1) (bvnot (|top#49| state))) ; $0$formal$measure/frame_escape.v:12$15_CHECK[0:0]$49
(define-fun |top_u 13| ((state |top_s|)) Bool (or (= ((_ extract 0 0) (|top#50| state)) #b1) (not true))) ; $assume$measure/frame_escape.v:12$127
(define-fun |top#51| ((state |top_s|)) (_ BitVec 4) (bvxor ((_ extract 51 48) (|top#0| state)) ((_ extract 55 52) (|top#0| state)))) ; $reduce_xor$measure/frame_escape.v:12$105.genblk1.folded
(define-fun |top#52| ((state |top_s|)) (_ BitVec 2) (bvxor ((_ extract 1 0) (|top#51| state)) ((_ extract 3 2) (|top#51| state)))) ; $techmap$reduce_xor$measure/frame_escape.v:12$105.$reduce_xor$../../examples/btor2/list.v:101$153.genblk1.folded
(define-fun |top#53| ((state |top_s|)) (_ BitVec 1) (bvxor ((_ extract 0 0) (|top#52| state)) ((_ extract 1 1) (|top#52| state)))) ; $reduce_xor$measure/frame_escape.v:12$105_Y
(define-fun |top#54| ((state |top_s|)) (_ BitVec 1) (bvnot (|top#53| state))) ; $0$formal$measure/frame_escape.v:12$17_CHECK[0:0]$53
(define-fun |top_u 14| ((state |top_s|)) Bool (or (= ((_ extract 0 0) (|top#54| state)) #b1) (not true))) ; $assume$measure/frame_escape.v:12$129
(define-fun |top#55| ((state |top_s|)) Bool (= ((_ extract 7 0) (|top#0| state)) #b00000110)) ; $0$formal$measure/frame_escape.v:13$19_CHECK[0:0]$57
(define-fun |top_u 15| ((state |top_s|)) Bool (or (|top#55| state) (not true))) ; $assume$measure/frame_escape.v:13$131
(define-fun |top#56| ((state |top_s|)) Bool (bvult #b11110000 ((_ extract 15 8) (|top#0| state)))) ; $0$formal$measure/frame_escape.v:14$20_CHECK[0:0]$59
(define-fun |top_u 16| ((state |top_s|)) Bool (or (|top#56| state) (not true))) ; $assume$measure/frame_escape.v:14$132
(define-fun |top#57| ((state |top_s|)) (_ BitVec 8) (bvxor #b01010101 ((_ extract 7 0) (|top#0| state)))) ; $xor$measure/frame_escape.v:10$65_Y
(define-fun |top#58| ((state |top_s|)) (_ BitVec 8) (bvxor (|top#57| state) ((_ extract 15 8) (|top#0| state)))) ; $xor$measure/frame_escape.v:10$71_Y
(define-fun |top#59| ((state |top_s|)) (_ BitVec 8) (bvxor (|top#58| state) ((_ extract 23 16) (|top#0| state)))) ; $xor$measure/frame_escape.v:10$77_Y
(define-fun |top#60| ((state |top_s|)) (_ BitVec 8) (bvxor (|top#59| state) ((_ extract 31 24) (|top#0| state)))) ; $xor$measure/frame_escape.v:10$83_Y
(define-fun |top#61| ((state |top_s|)) (_ BitVec 8) (bvxor (|top#60| state) ((_ extract 39 32) (|top#0| state)))) ; $xor$measure/frame_escape.v:10$89_Y
(define-fun |top#62| ((state |top_s|)) (_ BitVec 8) (bvxor (|top#61| state) ((_ extract 47 40) (|top#0| state)))) ; $xor$measure/frame_escape.v:10$95_Y
(define-fun |top#63| ((state |top_s|)) (_ BitVec 8) (bvxor (|top#62| state) ((_ extract 55 48) (|top#0| state)))) ; $xor$measure/frame_escape.v:10$101_Y
(define-fun |top#64| ((state |top_s|)) (_ BitVec 8) (bvxor (|top#63| state) ((_ extract 63 56) (|top#0| state)))) ; \x
(define-fun |top#65| ((state |top_s|)) Bool (= (|top#64| state) #b00111100)) ; $0$formal$measure/frame_escape.v:15$21_CHECK[0:0]$61
(define-fun |top_u 17| ((state |top_s|)) Bool (or (|top#65| state) (not true))) ; $assume$measure/frame_escape.v:15$133
(define-fun |top#66| ((state |top_s|)) Bool (= (|top#1| state) #b01111110)) ; $0$formal$measure/frame_escape.v:6$2_CHECK[0:0]$23
(define-fun |top_u 18| ((state |top_s|)) Bool (or (|top#66| state) (not true))) ; $assume$measure/frame_escape.v:6$114
(define-fun |top#67| ((state |top_s|)) Bool (= (|top#2| state) #b01111110)) ; $0$formal$measure/frame_escape.v:7$3_CHECK[0:0]$25
(define-fun |top_u 19| ((state |top_s|)) Bool (or (|top#67| state) (not true))) ; $assume$measure/frame_escape.v:7$115
(define-fun |top_a| ((state |top_s|)) Bool true)
(define-fun |top_u| ((state |top_s|)) Bool (and
  (|top_u 0| state)
  (|top_u 1| state)
  (|top_u 2| state)
  (|top_u 3| state)
  (|top_u 4| state)
  (|top_u 5| state)
  (|top_u 6| state)
  (|top_u 7| state)
  (|top_u 8| state)
  (|top_u 9| state)
  (|top_u 10| state)
  (|top_u 11| state)
  (|top_u 12| state)
  (|top_u 13| state)
  (|top_u 14| state)
  (|top_u 15| state)
  (|top_u 16| state)
  (|top_u 17| state)
  (|top_u 18| state)
  (|top_u 19| state)
))
(define-fun |top_i| ((state |top_s|)) Bool true)
(define-fun |top_h| ((state |top_s|)) Bool true)
(define-fun |top_t| ((state |top_s|) (next_state |top_s|)) Bool true) ; end of module top
(declare-fun s () |top_s|)
(assert (|top_u| s))
(check-sat)
