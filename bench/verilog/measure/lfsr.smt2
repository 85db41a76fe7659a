(set-logic QF_BV)
(define-sort |top_s| () (_ BitVec 17))
(define-fun |top_is| ((state |top_s|)) Bool (= ((_ extract 0 0) state) #b1))
(define-fun |top#0| ((state |top_s|)) (_ BitVec 16) ((_ extract 16 1) state)) ; \seed
(define-fun |top_n seed| ((state |top_s|)) (_ BitVec 16) (|top#0| state))
(define-fun |top#1| ((state |top_s|)) Bool (distinct (|top#0| state) #b0000000000000000)) ; $0$formal$measure/lfsr.v:12$2_CHECK[0:0]$5
(define-fun |top_u 0| ((state |top_s|)) Bool (or (|top#1| state) (not true))) ; $assume$measure/lfsr.v:12$131
(define-fun |top#2| ((state |top_s|)) (_ BitVec 1) (bvxor ((_ extract 7 7) (|top#0| state)) ((_ extract 6 6) (|top#0| state)))) ; $xor$measure/lfsr.v:11$33_Y
(define-fun |top#3| ((state |top_s|)) (_ BitVec 1) (bvxor (|top#2| state) ((_ extract 4 4) (|top#0| state)))) ; $xor$measure/lfsr.v:11$34_Y
(define-fun |top#4| ((state |top_s|)) (_ BitVec 1) (bvxor ((_ extract 11 11) (|top#0| state)) ((_ extract 10 10) (|top#0| state)))) ; $xor$measure/lfsr.v:11$21_Y
(define-fun |top#5| ((state |top_s|)) (_ BitVec 1) (bvxor (|top#4| state) ((_ extract 8 8) (|top#0| state)))) ; $xor$measure/lfsr.v:11$22_Y
(define-fun |top#6| ((state |top_s|)) (_ BitVec 1) (bvxor ((_ extract 15 15) (|top#0| state)) ((_ extract 14 14) (|top#0| state)))) ; $xor$measure/lfsr.v:11$9_Y
(define-fun |top#7| ((state |top_s|)) (_ BitVec 1) (bvxor (|top#6| state) ((_ extract 12 12) (|top#0| state)))) ; $xor$measure/lfsr.v:11$10_Y
(define-fun |top#8| ((state |top_s|)) (_ BitVec 1) (bvxor (|top#7| state) ((_ extract 3 3) (|top#0| state)))) ; $xor$measure/lfsr.v:11$11_Y
(define-fun |top#9| ((state |top_s|)) (_ BitVec 1) (bvxor (|top#5| state) (|top#8| state))) ; $xor$measure/lfsr.v:11$23_Y
(define-fun |top#10| ((state |top_s|)) (_ BitVec 1) (bvxor (|top#3| state) (|top#9| state))) ; \out [0]
(define-fun |top#11| ((state |top_s|)) (_ BitVec 1) (bvxor ((_ extract 6 6) (|top#0| state)) ((_ extract 5 5) (|top#0| state)))) ; $xor$measure/lfsr.v:11$36_Y
(define-fun |top#12| ((state |top_s|)) (_ BitVec 1) (bvxor (|top#11| state) ((_ extract 3 3) (|top#0| state)))) ; $xor$measure/lfsr.v:11$37_Y
(define-fun |top#13| ((state |top_s|)) (_ BitVec 1) (bvxor ((_ extract 10 10) (|top#0| state)) ((_ extract 9 9) (|top#0| state)))) ; $xor$measure/lfsr.v:11$24_Y
(define-fun |top#14| ((state |top_s|)) (_ BitVec 1) (bvxor (|top#13| state) ((_ extract 7 7) (|top#0| state)))) ; $xor$measure/lfsr.v:11$25_Y
(define-fun |top#15| ((state |top_s|)) (_ BitVec 1) (bvxor ((_ extract 14 14) (|top#0| state)) ((_ extract 13 13) (|top#0| state)))) ; $xor$measure/lfsr.v:11$12_Y
(define-fun |top#16| ((state |top_s|)) (_ BitVec 1) (bvxor (|top#15| state) ((_ extract 11 11) (|top#0| state)))) ; $xor$measure/lfsr.v:11$13_Y
(define-fun |top#17| ((state |top_s|)) (_ BitVec 1) (bvxor (|top#16| state) ((_ extract 2 2) (|top#0| state)))) ; $xor$measure/lfsr.v:11$14_Y
(define-fun |top#18| ((state |top_s|)) (_ BitVec 1) (bvxor (|top#14| state) (|top#17| state))) ; $xor$measure/lfsr.v:11$26_Y
(define-fun |top#19| ((state |top_s|)) (_ BitVec 1) (bvxor (|top#12| state) (|top#18| state))) ; \out [1]
(define-fun |top#20| ((state |top_s|)) (_ BitVec 1) (bvxor ((_ extract 5 5) (|top#0| state)) ((_ extract 4 4) (|top#0| state)))) ; $xor$measure/lfsr.v:11$39_Y
(define-fun |top#21| ((state |top_s|)) (_ BitVec 1) (bvxor (|top#20| state) ((_ extract 2 2) (|top#0| state)))) ; $xor$measure/lfsr.v:11$40_Y
(define-fun |top#22| ((state |top_s|)) (_ BitVec 1) (bvxor ((_ extract 9 9) (|top#0| state)) ((_ extract 8 8) (|top#0| state)))) ; $xor$measure/lfsr.v:11$27_Y
(define-fun |top#23| ((state |top_s|)) (_ BitVec 1) (bvxor (|top#22| state) ((_ extract 6 6) (|top#0| state)))) ; $xor$measure/lfsr.v:11$28_Y
(define-fun |top#24| ((state |top_s|)) (_ BitVec 1) (bvxor ((_ extract 13 13) (|top#0| state)) ((_ extract 12 12) (|top#0| state)))) ; $xor$measure/lfsr.v:11$15_Y
(define-fun |top#25| ((state |top_s|)) (_ BitVec 1) (bvxor (|top#24| state) ((_ extract 10 10) (|top#0| state)))) ; $xor$measure/lfsr.v:11$16_Y
(define-fun |top#26| ((state |top_s|)) (_ BitVec 1) (bvxor (|top#25| state) ((_ extract 1 1) (|top#0| state)))) ; $xor$measure/lfsr.v:11$17_Y
(define-fun |top#27| ((state |top_s|)) (_ BitVec 1) (bvxor (|top#23| state) (|top#26| state))) ; $xor$measure/lfsr.v:11$29_Y
(define-fun |top#28| ((state |top_s|)) (_ BitVec 1) (bvxor (|top#21| state) (|top#27| state))) ; \out [2]
(define-fun |top#29| ((state |top_s|)) (_ BitVec 1) (bvxor ((_ extract 4 4) (|top#0| state)) ((_ extract 3 3) (|top#0| state)))) ; $xor$measure/lfsr.v:11$42_Y
(define-fun |top#30| ((state |top_s|)) (_ BitVec 1) (bvxor (|top#29| state) ((_ extract 1 1) (|top#0| state)))) ; $xor$measure/lfsr.v:11$43_Y
(define-fun |top#31| ((state |top_s|)) (_ BitVec 1) (bvxor ((_ extract 8 8) (|top#0| state)) ((_ extract 7 7) (|top#0| state)))) ; $xor$measure/lfsr.v:11$30_Y
(define-fun |top#32| ((state |top_s|)) (_ BitVec 1) (bvxor (|top#31| state) ((_ extract 5 5) (|top#0| state)))) ; $xor$measure/lfsr.v:11$31_Y
(define-fun |top#33| ((state |top_s|)) (_ BitVec 1) (bvxor ((_ extract 12 12) (|top#0| state)) ((_ extract 11 11) (|top#0| state)))) ; $xor$measure/lfsr.v:11$18_Y
(define-fun |top#34| ((state |top_s|)) (_ BitVec 1) (bvxor (|top#33| state) ((_ extract 9 9) (|top#0| state)))) ; $xor$measure/lfsr.v:11$19_Y
(define-fun |top#35| ((state |top_s|)) (_ BitVec 1) (bvxor (|top#34| state) ((_ extract 0 0) (|top#0| state)))) ; $xor$measure/lfsr.v:11$20_Y
(define-fun |top#36| ((state |top_s|)) (_ BitVec 1) (bvxor (|top#32| state) (|top#35| state))) ; $xor$measure/lfsr.v:11$32_Y
(define-fun |top#37| ((state |top_s|)) (_ BitVec 1) (bvxor (|top#30| state) (|top#36| state))) ; \out [3]
(define-fun |top#38| ((state |top_s|)) (_ BitVec 1) (bvxor ((_ extract 3 3) (|top#0| state)) ((_ extract 2 2) (|top#0| state)))) ; $xor$measure/lfsr.v:11$45_Y
(define-fun |top#39| ((state |top_s|)) (_ BitVec 1) (bvxor (|top#38| state) ((_ extract 0 0) (|top#0| state)))) ; $xor$measure/lfsr.v:11$46_Y
(define-fun |top#40| ((state |top_s|)) (_ BitVec 1) (bvxor (|top#39| state) (|top#10| state))) ; \out [4]
(define-fun |top#41| ((state |top_s|)) (_ BitVec 1) (bvxor ((_ extract 2 2) (|top#0| state)) ((_ extract 1 1) (|top#0| state)))) ; $xor$measure/lfsr.v:11$48_Y
(define-fun |top#42| ((state |top_s|)) (_ BitVec 1) (bvxor (|top#41| state) (|top#8| state))) ; $xor$measure/lfsr.v:11$49_Y
(define-fun |top#43| ((state |top_s|)) (_ BitVec 1) (bvxor (|top#42| state) (|top#19| state))) ; \out [5]
(define-fun |top#44| ((state |top_s|)) (_ BitVec 1) (bvxor ((_ extract 1 1) (|top#0| state)) ((_ extract 0 0) (|top#0| state)))) ; $xor$measure/lfsr.v:11$51_Y
(define-fun |top#45| ((state |top_s|)) (_ BitVec 1) (bvxor (|top#44| state) (|top#17| state))) ; $xor$measure/lfsr.v:11$52_Y
(define-fun |top#46| ((state |top_s|)) (_ BitVec 1) (bvxor (|top#45| state) (|top#28| state))) ; \out [6]
(define-fun |top#47| ((state |top_s|)) (_ BitVec 1) (bvxor ((_ extract 0 0) (|top#0| state)) (|top#8| state))) ; $xor$measure/lfsr.v:11$54_Y
(define-fun |top#48| ((state |top_s|)) (_ BitVec 1) (bvxor (|top#47| state) (|top#26| state))) ; $xor$measure/lfsr.v:11$55_Y
(define-fun |top#49| ((state |top_s|)) (_ BitVec 1) (bvxor (|top#48| state) (|top#37| state))) ; \out [7]
(define-fun |top#50| ((state |top_s|)) (_ BitVec 1) (bvxor (|top#8| state) (|top#17| state))) ; $xor$measure/lfsr.v:11$57_Y
(define-fun |top#51| ((state |top_s|)) (_ BitVec 1) (bvxor (|top#50| state) (|top#35| state))) ; $xor$measure/lfsr.v:11$58_Y
(define-fun |top#52| ((state |top_s|)) (_ BitVec 1) (bvxor (|top#51| state) (|top#40| state))) ; \out [8]
(define-fun |top#53| ((state |top_s|)) (_ BitVec 1) (bvxor (|top#17| state) (|top#26| state))) ; $xor$measure/lfsr.v:11$60_Y
(define-fun |top#54| ((state |top_s|)) (_ BitVec 1) (bvxor (|top#53| state) (|top#9| state))) ; $xor$measure/lfsr.v:11$61_Y
(define-fun |top#55| ((state |top_s|)) (_ BitVec 1) (bvxor (|top#54| state) (|top#43| state))) ; \out [9]
(define-fun |top#56| ((state |top_s|)) (_ BitVec 1) (bvxor (|top#26| state) (|top#35| state))) ; $xor$measure/lfsr.v:11$63_Y
(define-fun |top#57| ((state |top_s|)) (_ BitVec 1) (bvxor (|top#56| state) (|top#18| state))) ; $xor$measure/lfsr.v:11$64_Y
(define-fun |top#58| ((state |top_s|)) (_ BitVec 1) (bvxor (|top#57| state) (|top#46| state))) ; \out [10]
(define-fun |top#59| ((state |top_s|)) (_ BitVec 1) (bvxor (|top#35| state) (|top#9| state))) ; $xor$measure/lfsr.v:11$66_Y
(define-fun |top#60| ((state |top_s|)) (_ BitVec 1) (bvxor (|top#59| state) (|top#27| state))) ; $xor$measure/lfsr.v:11$67_Y
(define-fun |top#61| ((state |top_s|)) (_ BitVec 1) (bvxor (|top#60| state) (|top#49| state))) ; \out [11]
(define-fun |top#62| ((state |top_s|)) (_ BitVec 1) (bvxor (|top#9| state) (|top#18| state))) ; $xor$measure/lfsr.v:11$69_Y
(define-fun |top#63| ((state |top_s|)) (_ BitVec 1) (bvxor (|top#62| state) (|top#36| state))) ; $xor$measure/lfsr.v:11$70_Y
(define-fun |top#64| ((state |top_s|)) (_ BitVec 1) (bvxor (|top#63| state) (|top#52| state))) ; \out [12]
(define-fun |top#65| ((state |top_s|)) (_ BitVec 1) (bvxor (|top#18| state) (|top#27| state))) ; $xor$measure/lfsr.v:11$72_Y
(define-fun |top#66| ((state |top_s|)) (_ BitVec 1) (bvxor (|top#65| state) (|top#10| state))) ; $xor$measure/lfsr.v:11$73_Y
(define-fun |top#67| ((state |top_s|)) (_ BitVec 1) (bvxor (|top#66| state) (|top#55| state))) ; \out [13]
(define-fun |top#68| ((state |top_s|)) (_ BitVec 1) (bvxor (|top#27| state) (|top#36| state))) ; $xor$measure/lfsr.v:11$75_Y
(define-fun |top#69| ((state |top_s|)) (_ BitVec 1) (bvxor (|top#68| state) (|top#19| state))) ; $xor$measure/lfsr.v:11$76_Y
(define-fun |top#70| ((state |top_s|)) (_ BitVec 1) (bvxor (|top#69| state) (|top#58| state))) ; \out [14]
(define-fun |top#71| ((state |top_s|)) (_ BitVec 1) (bvxor (|top#36| state) (|top#10| state))) ; $xor$measure/lfsr.v:11$78_Y
(define-fun |top#72| ((state |top_s|)) (_ BitVec 1) (bvxor (|top#71| state) (|top#28| state))) ; $xor$measure/lfsr.v:11$79_Y
(define-fun |top#73| ((state |top_s|)) (_ BitVec 1) (bvxor (|top#72| state) (|top#61| state))) ; \out [15]
(define-fun |top#74| ((state |top_s|)) Bool (= (concat (|top#73| state) (concat (|top#70| state) (concat (|top#67| state) (concat (|top#64| state) (concat (|top#61| state) (concat (|top#58| state) (concat (|top#55| state) (concat (|top#52| state) (concat (|top#49| state) (concat (|top#46| state) (concat (|top#43| state) (concat (|top#40| state) (concat (|top#37| state) (concat (|top#28| state) (concat (|top#19| state) (|top#10| state)))))))))))))))) #b0101101011000011)) ; $0$formal$measure/lfsr.v:13$3_CHECK[0:0]$7
(define-fun |top_u 1| ((state |top_s|)) Bool (or (|top#74| state) (not true))) ; $assume$measure/lfsr.v:13$132
(define-fun |top_a| ((state |top_s|)) Bool true)
(define-fun |top_u| ((state |top_s|)) Bool (and
  (|top_u 0| state)
  (|top_u 1| state)
))
(define-fun |top_i| ((state |top_s|)) Bool true)
(define-fun |top_h| ((state |top_s|)) Bool true)
(define-fun |top_t| ((state |top_s|) (next_state |top_s|)) Bool true) ; end of module top
(declare-fun s () |top_s|)
(assert (|top_u| s))
(check-sat)
