(set-logic QF_BV)
(define-sort |top_s| () (_ BitVec 49))
(define-fun |top_is| ((state |top_s|)) Bool (= ((_ extract 0 0) state) #b1))
(define-fun |top#0| ((state |top_s|)) (_ BitVec 48) ((_ extract 48 1) state)) ; \text
(define-fun |top_n text| ((state |top_s|)) (_ BitVec 48) (|top#0| state))
(define-fun |top#1| ((state |top_s|)) (_ BitVec 1) (bvnot ((_ extract 45 45) (|top#0| state)))) ; $auto$opt_expr.cc:205:group_cell_inputs$202
(define-fun |top#2| ((state |top_s|)) (_ BitVec 1) (bvxor ((_ extract 44 44) (|top#0| state)) ((_ extract 40 40) (|top#0| state)))) ; $auto$opt_expr.cc:205:group_cell_inputs$217
(define-fun |top#3| ((state |top_s|)) (_ BitVec 2) (bvxor (concat ((_ extract 47 47) (|top#0| state)) (|top#1| state)) (concat (|top#2| state) (|top#2| state)))) ; { $auto$opt_expr.cc:205:group_cell_inputs$215 [11] $auto$opt_expr.cc:205:group_cell_inputs$215 [4] }
(define-fun |top#4| ((state |top_s|)) (_ BitVec 1) (bvxor ((_ extract 1 1) (|top#3| state)) ((_ extract 36 36) (|top#0| state)))) ; $auto$opt_expr.cc:205:group_cell_inputs$229
(define-fun |top#5| ((state |top_s|)) (_ BitVec 1) (bvxor ((_ extract 47 47) (|top#0| state)) ((_ extract 43 43) (|top#0| state)))) ; $auto$opt_expr.cc:205:group_cell_inputs$208
(define-fun |top#6| ((state |top_s|)) (_ BitVec 1) (bvxor ((_ extract 46 46) (|top#0| state)) ((_ extract 42 42) (|top#0| state)))) ; $auto$opt_expr.cc:205:group_cell_inputs$211
(define-fun |top#7| ((state |top_s|)) (_ BitVec 1) (bvnot (|top#6| state))) ; $auto$opt_expr.cc:205:group_cell_inputs$209 [11]
(define-fun |top#8| ((state |top_s|)) (_ BitVec 1) (bvxor (|top#7| state) ((_ extract 38 38) (|top#0| state)))) ; $auto$opt_expr.cc:205:group_cell_inputs$223
(define-fun |top#9| ((state |top_s|)) (_ BitVec 2) (bvxor (concat ((_ extract 45 45) (|top#0| state)) (|top#5| state)) (concat (|top#8| state) (|top#8| state)))) ; { $auto$opt_expr.cc:205:group_cell_inputs$221 [11] $auto$opt_expr.cc:205:group_cell_inputs$221 [4] }
(define-fun |top#10| ((state |top_s|)) (_ BitVec 1) (bvnot ((_ extract 47 47) (|top#0| state)))) ; $auto$opt_expr.cc:205:group_cell_inputs$197 [0]
(define-fun |top#11| ((state |top_s|)) (_ BitVec 1) (bvxor (|top#10| state) (|top#6| state))) ; $auto$opt_expr.cc:205:group_cell_inputs$209 [4]
(define-fun |top#12| ((state |top_s|)) (_ BitVec 1) (bvnot ((_ extract 44 44) (|top#0| state)))) ; $auto$opt_expr.cc:205:group_cell_inputs$205
(define-fun |top#13| ((state |top_s|)) (_ BitVec 1) (bvnot (|top#5| state))) ; $auto$opt_expr.cc:205:group_cell_inputs$206 [11]
(define-fun |top#14| ((state |top_s|)) (_ BitVec 1) (bvxor (|top#13| state) ((_ extract 39 39) (|top#0| state)))) ; $auto$opt_expr.cc:205:group_cell_inputs$220
(define-fun |top#15| ((state |top_s|)) (_ BitVec 2) (bvxor (concat ((_ extract 46 46) (|top#0| state)) (|top#12| state)) (concat (|top#14| state) (|top#14| state)))) ; { $auto$opt_expr.cc:205:group_cell_inputs$218 [11] $auto$opt_expr.cc:205:group_cell_inputs$218 [4] }
(define-fun |top#16| ((state |top_s|)) (_ BitVec 1) (bvxor ((_ extract 1 1) (|top#15| state)) ((_ extract 35 35) (|top#0| state)))) ; $auto$opt_expr.cc:205:group_cell_inputs$232
(define-fun |top#17| ((state |top_s|)) (_ BitVec 2) (bvxor (concat (|top#11| state) (|top#2| state)) (concat (|top#16| state) (|top#16| state)))) ; { $auto$opt_expr.cc:205:group_cell_inputs$230 [11] $auto$opt_expr.cc:205:group_cell_inputs$230 [4] }
(define-fun |top#18| ((state |top_s|)) (_ BitVec 1) (bvxor ((_ extract 1 1) (|top#17| state)) ((_ extract 31 31) (|top#0| state)))) ; $auto$opt_expr.cc:205:group_cell_inputs$244
(define-fun |top#19| ((state |top_s|)) (_ BitVec 2) (bvxor (concat ((_ extract 0 0) (|top#9| state)) (|top#4| state)) (concat (|top#18| state) (|top#18| state)))) ; { $auto$opt_expr.cc:205:group_cell_inputs$242 [11] $auto$opt_expr.cc:205:group_cell_inputs$242 [4] }
(define-fun |top#20| ((state |top_s|)) (_ BitVec 1) (bvxor ((_ extract 1 1) (|top#19| state)) ((_ extract 27 27) (|top#0| state)))) ; $auto$opt_expr.cc:205:group_cell_inputs$256
(define-fun |top#21| ((state |top_s|)) (_ BitVec 1) (bvxor ((_ extract 1 1) (|top#9| state)) ((_ extract 34 34) (|top#0| state)))) ; $auto$opt_expr.cc:205:group_cell_inputs$235
(define-fun |top#22| ((state |top_s|)) (_ BitVec 1) (bvxor ((_ extract 45 45) (|top#0| state)) ((_ extract 41 41) (|top#0| state)))) ; $auto$opt_expr.cc:205:group_cell_inputs$214
(define-fun |top#23| ((state |top_s|)) (_ BitVec 2) (bvxor (concat (|top#13| state) (|top#22| state)) (concat (|top#4| state) (|top#4| state)))) ; { $auto$opt_expr.cc:205:group_cell_inputs$227 [11] $auto$opt_expr.cc:205:group_cell_inputs$227 [4] }
(define-fun |top#24| ((state |top_s|)) (_ BitVec 1) (bvnot (|top#22| state))) ; $auto$opt_expr.cc:205:group_cell_inputs$212 [11]
(define-fun |top#25| ((state |top_s|)) (_ BitVec 1) (bvxor (|top#24| state) ((_ extract 37 37) (|top#0| state)))) ; $auto$opt_expr.cc:205:group_cell_inputs$226
(define-fun |top#26| ((state |top_s|)) (_ BitVec 2) (bvxor (concat ((_ extract 44 44) (|top#0| state)) (|top#6| state)) (concat (|top#25| state) (|top#25| state)))) ; { $auto$opt_expr.cc:205:group_cell_inputs$224 [11] $auto$opt_expr.cc:205:group_cell_inputs$224 [4] }
(define-fun |top#27| ((state |top_s|)) (_ BitVec 1) (bvxor ((_ extract 1 1) (|top#26| state)) ((_ extract 33 33) (|top#0| state)))) ; $auto$opt_expr.cc:205:group_cell_inputs$238
(define-fun |top#28| ((state |top_s|)) (_ BitVec 2) (bvxor (concat ((_ extract 0 0) (|top#3| state)) (|top#8| state)) (concat (|top#27| state) (|top#27| state)))) ; { $auto$opt_expr.cc:205:group_cell_inputs$236 [11] $auto$opt_expr.cc:205:group_cell_inputs$236 [4] }
(define-fun |top#29| ((state |top_s|)) (_ BitVec 1) (bvxor ((_ extract 1 1) (|top#28| state)) ((_ extract 29 29) (|top#0| state)))) ; $auto$opt_expr.cc:205:group_cell_inputs$250
(define-fun |top#30| ((state |top_s|)) (_ BitVec 2) (bvxor (concat ((_ extract 0 0) (|top#23| state)) (|top#21| state)) (concat (|top#29| state) (|top#29| state)))) ; { $auto$opt_expr.cc:205:group_cell_inputs$248 [11] $auto$opt_expr.cc:205:group_cell_inputs$248 [4] }
(define-fun |top#31| ((state |top_s|)) (_ BitVec 1) (bvnot ((_ extract 46 46) (|top#0| state)))) ; $auto$opt_expr.cc:205:group_cell_inputs$199
(define-fun |top#32| ((state |top_s|)) (_ BitVec 1) (bvxor (|top#31| state) (|top#22| state))) ; $auto$opt_expr.cc:205:group_cell_inputs$212 [4]
(define-fun |top#33| ((state |top_s|)) (_ BitVec 2) (bvxor (concat (|top#32| state) (|top#14| state)) (concat (|top#21| state) (|top#21| state)))) ; { $auto$opt_expr.cc:205:group_cell_inputs$233 [11] $auto$opt_expr.cc:205:group_cell_inputs$233 [4] }
(define-fun |top#34| ((state |top_s|)) (_ BitVec 1) (bvxor ((_ extract 1 1) (|top#33| state)) ((_ extract 30 30) (|top#0| state)))) ; $auto$opt_expr.cc:205:group_cell_inputs$247
(define-fun |top#35| ((state |top_s|)) (_ BitVec 2) (bvxor (concat ((_ extract 0 0) (|top#26| state)) (|top#16| state)) (concat (|top#34| state) (|top#34| state)))) ; { $auto$opt_expr.cc:205:group_cell_inputs$245 [11] $auto$opt_expr.cc:205:group_cell_inputs$245 [4] }
(define-fun |top#36| ((state |top_s|)) (_ BitVec 1) (bvxor ((_ extract 1 1) (|top#35| state)) ((_ extract 26 26) (|top#0| state)))) ; $auto$opt_expr.cc:205:group_cell_inputs$259
(define-fun |top#37| ((state |top_s|)) (_ BitVec 2) (bvxor (concat ((_ extract 0 0) (|top#28| state)) (|top#18| state)) (concat (|top#36| state) (|top#36| state)))) ; { $auto$opt_expr.cc:205:group_cell_inputs$257 [11] $auto$opt_expr.cc:205:group_cell_inputs$257 [4] }
(define-fun |top#38| ((state |top_s|)) (_ BitVec 1) (bvxor ((_ extract 1 1) (|top#37| state)) ((_ extract 22 22) (|top#0| state)))) ; $auto$opt_expr.cc:205:group_cell_inputs$271
(define-fun |top#39| ((state |top_s|)) (_ BitVec 2) (bvxor (concat ((_ extract 0 0) (|top#30| state)) (|top#20| state)) (concat (|top#38| state) (|top#38| state)))) ; { $auto$opt_expr.cc:205:group_cell_inputs$269 [11] $auto$opt_expr.cc:205:group_cell_inputs$269 [4] }
(define-fun |top#40| ((state |top_s|)) (_ BitVec 1) (bvxor ((_ extract 1 1) (|top#39| state)) ((_ extract 18 18) (|top#0| state)))) ; $auto$opt_expr.cc:205:group_cell_inputs$283
(define-fun |top#41| ((state |top_s|)) (_ BitVec 1) (bvxor ((_ extract 1 1) (|top#30| state)) ((_ extract 25 25) (|top#0| state)))) ; $auto$opt_expr.cc:205:group_cell_inputs$262
(define-fun |top#42| ((state |top_s|)) (_ BitVec 1) (bvxor ((_ extract 1 1) (|top#23| state)) ((_ extract 32 32) (|top#0| state)))) ; $auto$opt_expr.cc:205:group_cell_inputs$241
(define-fun |top#43| ((state |top_s|)) (_ BitVec 2) (bvxor (concat ((_ extract 0 0) (|top#33| state)) (|top#42| state)) (concat (|top#20| state) (|top#20| state)))) ; { $auto$opt_expr.cc:205:group_cell_inputs$254 [11] $auto$opt_expr.cc:205:group_cell_inputs$254 [4] }
(define-fun |top#44| ((state |top_s|)) (_ BitVec 2) (bvxor (concat ((_ extract 0 0) (|top#15| state)) (|top#25| state)) (concat (|top#42| state) (|top#42| state)))) ; { $auto$opt_expr.cc:205:group_cell_inputs$239 [11] $auto$opt_expr.cc:205:group_cell_inputs$239 [4] }
(define-fun |top#45| ((state |top_s|)) (_ BitVec 1) (bvxor ((_ extract 1 1) (|top#44| state)) ((_ extract 28 28) (|top#0| state)))) ; $auto$opt_expr.cc:205:group_cell_inputs$253
(define-fun |top#46| ((state |top_s|)) (_ BitVec 2) (bvxor (concat ((_ extract 0 0) (|top#17| state)) (|top#27| state)) (concat (|top#45| state) (|top#45| state)))) ; { $auto$opt_expr.cc:205:group_cell_inputs$251 [11] $auto$opt_expr.cc:205:group_cell_inputs$251 [4] }
(define-fun |top#47| ((state |top_s|)) (_ BitVec 1) (bvxor ((_ extract 1 1) (|top#46| state)) ((_ extract 24 24) (|top#0| state)))) ; $auto$opt_expr.cc:205:group_cell_inputs$265
(define-fun |top#48| ((state |top_s|)) (_ BitVec 2) (bvxor (concat ((_ extract 0 0) (|top#19| state)) (|top#29| state)) (concat (|top#47| state) (|top#47| state)))) ; { $auto$opt_expr.cc:205:group_cell_inputs$263 [11] $auto$opt_expr.cc:205:group_cell_inputs$263 [4] }
(define-fun |top#49| ((state |top_s|)) (_ BitVec 1) (bvxor ((_ extract 1 1) (|top#48| state)) ((_ extract 20 20) (|top#0| state)))) ; $auto$opt_expr.cc:205:group_cell_inputs$277
(define-fun |top#50| ((state |top_s|)) (_ BitVec 2) (bvxor (concat ((_ extract 0 0) (|top#43| state)) (|top#41| state)) (concat (|top#49| state) (|top#49| state)))) ; { $auto$opt_expr.cc:205:group_cell_inputs$275 [11] $auto$opt_expr.cc:205:group_cell_inputs$275 [4] }
(define-fun |top#51| ((state |top_s|)) (_ BitVec 2) (bvxor (concat ((_ extract 0 0) (|top#44| state)) (|top#34| state)) (concat (|top#41| state) (|top#41| state)))) ; { $auto$opt_expr.cc:205:group_cell_inputs$260 [11] $auto$opt_expr.cc:205:group_cell_inputs$260 [4] }
(define-fun |top#52| ((state |top_s|)) (_ BitVec 1) (bvxor ((_ extract 1 1) (|top#51| state)) ((_ extract 21 21) (|top#0| state)))) ; $auto$opt_expr.cc:205:group_cell_inputs$274
(define-fun |top#53| ((state |top_s|)) (_ BitVec 2) (bvxor (concat ((_ extract 0 0) (|top#46| state)) (|top#36| state)) (concat (|top#52| state) (|top#52| state)))) ; { $auto$opt_expr.cc:205:group_cell_inputs$272 [11] $auto$opt_expr.cc:205:group_cell_inputs$272 [4] }
(define-fun |top#54| ((state |top_s|)) (_ BitVec 1) (bvxor ((_ extract 1 1) (|top#53| state)) ((_ extract 17 17) (|top#0| state)))) ; $auto$opt_expr.cc:205:group_cell_inputs$286
(define-fun |top#55| ((state |top_s|)) (_ BitVec 2) (bvxor (concat ((_ extract 0 0) (|top#48| state)) (|top#38| state)) (concat (|top#54| state) (|top#54| state)))) ; { $auto$opt_expr.cc:205:group_cell_inputs$284 [11] $auto$opt_expr.cc:205:group_cell_inputs$284 [4] }
(define-fun |top#56| ((state |top_s|)) (_ BitVec 1) (bvxor ((_ extract 1 1) (|top#55| state)) ((_ extract 13 13) (|top#0| state)))) ; $auto$opt_expr.cc:205:group_cell_inputs$298
(define-fun |top#57| ((state |top_s|)) (_ BitVec 2) (bvxor (concat ((_ extract 0 0) (|top#50| state)) (|top#40| state)) (concat (|top#56| state) (|top#56| state)))) ; { $auto$opt_expr.cc:205:group_cell_inputs$296 [11] $auto$opt_expr.cc:205:group_cell_inputs$296 [4] }
(define-fun |top#58| ((state |top_s|)) (_ BitVec 1) (bvxor ((_ extract 1 1) (|top#57| state)) ((_ extract 9 9) (|top#0| state)))) ; $auto$opt_expr.cc:205:group_cell_inputs$310
(define-fun |top#59| ((state |top_s|)) (_ BitVec 1) (bvxor ((_ extract 1 1) (|top#50| state)) ((_ extract 16 16) (|top#0| state)))) ; $auto$opt_expr.cc:205:group_cell_inputs$289
(define-fun |top#60| ((state |top_s|)) (_ BitVec 1) (bvxor ((_ extract 1 1) (|top#43| state)) ((_ extract 23 23) (|top#0| state)))) ; $auto$opt_expr.cc:205:group_cell_inputs$268
(define-fun |top#61| ((state |top_s|)) (_ BitVec 2) (bvxor (concat ((_ extract 0 0) (|top#51| state)) (|top#60| state)) (concat (|top#40| state) (|top#40| state)))) ; { $auto$opt_expr.cc:205:group_cell_inputs$281 [11] $auto$opt_expr.cc:205:group_cell_inputs$281 [4] }
(define-fun |top#62| ((state |top_s|)) (_ BitVec 2) (bvxor (concat ((_ extract 0 0) (|top#35| state)) (|top#45| state)) (concat (|top#60| state) (|top#60| state)))) ; { $auto$opt_expr.cc:205:group_cell_inputs$266 [11] $auto$opt_expr.cc:205:group_cell_inputs$266 [4] }
(define-fun |top#63| ((state |top_s|)) (_ BitVec 1) (bvxor ((_ extract 1 1) (|top#62| state)) ((_ extract 19 19) (|top#0| state)))) ; $auto$opt_expr.cc:205:group_cell_inputs$280
(define-fun |top#64| ((state |top_s|)) (_ BitVec 2) (bvxor (concat ((_ extract 0 0) (|top#37| state)) (|top#47| state)) (concat (|top#63| state) (|top#63| state)))) ; { $auto$opt_expr.cc:205:group_cell_inputs$278 [11] $auto$opt_expr.cc:205:group_cell_inputs$278 [4] }
(define-fun |top#65| ((state |top_s|)) (_ BitVec 1) (bvxor ((_ extract 1 1) (|top#64| state)) ((_ extract 15 15) (|top#0| state)))) ; $auto$opt_expr.cc:205:group_cell_inputs$292
(define-fun |top#66| ((state |top_s|)) (_ BitVec 2) (bvxor (concat ((_ extract 0 0) (|top#39| state)) (|top#49| state)) (concat (|top#65| state) (|top#65| state)))) ; { $auto$opt_expr.cc:205:group_cell_inputs$290 [11] $auto$opt_expr.cc:205:group_cell_inputs$290 [4] }
(define-fun |top#67| ((state |top_s|)) (_ BitVec 1) (bvxor ((_ extract 1 1) (|top#66| state)) ((_ extract 11 11) (|top#0| state)))) ; $auto$opt_expr.cc:205:group_cell_inputs$304
(define-fun |top#68| ((state |top_s|)) (_ BitVec 2) (bvxor (concat ((_ extract 0 0) (|top#61| state)) (|top#59| state)) (concat (|top#67| state) (|top#67| state)))) ; { $auto$opt_expr.cc:205:group_cell_inputs$302 [11] $auto$opt_expr.cc:205:group_cell_inputs$302 [4] }
(define-fun |top#69| ((state |top_s|)) (_ BitVec 2) (bvxor (concat ((_ extract 0 0) (|top#62| state)) (|top#52| state)) (concat (|top#59| state) (|top#59| state)))) ; { $auto$opt_expr.cc:205:group_cell_inputs$287 [11] $auto$opt_expr.cc:205:group_cell_inputs$287 [4] }
(define-fun |top#70| ((state |top_s|)) (_ BitVec 1) (bvxor ((_ extract 1 1) (|top#69| state)) ((_ extract 12 12) (|top#0| state)))) ; $auto$opt_expr.cc:205:group_cell_inputs$301
(define-fun |top#71| ((state |top_s|)) (_ BitVec 2) (bvxor (concat ((_ extract 0 0) (|top#64| state)) (|top#54| state)) (concat (|top#70| state) (|top#70| state)))) ; { $auto$opt_expr.cc:205:group_cell_inputs$299 [11] $auto$opt_expr.cc:205:group_cell_inputs$299 [4] }
(define-fun |top#72| ((state |top_s|)) (_ BitVec 1) (bvxor ((_ extract 1 1) (|top#71| state)) ((_ extract 8 8) (|top#0| state)))) ; $auto$opt_expr.cc:205:group_cell_inputs$313
(define-fun |top#73| ((state |top_s|)) (_ BitVec 2) (bvxor (concat ((_ extract 0 0) (|top#66| state)) (|top#56| state)) (concat (|top#72| state) (|top#72| state)))) ; { $auto$opt_expr.cc:205:group_cell_inputs$311 [11] $auto$opt_expr.cc:205:group_cell_inputs$311 [4] }
(define-fun |top#74| ((state |top_s|)) (_ BitVec 1) (bvxor ((_ extract 1 1) (|top#73| state)) ((_ extract 4 4) (|top#0| state)))) ; \c [4]
(define-fun |top#75| ((state |top_s|)) (_ BitVec 2) (bvxor (concat ((_ extract 0 0) (|top#68| state)) (|top#58| state)) (concat (|top#74| state) (|top#74| state)))) ; { $auto$opt_expr.cc:205:group_cell_inputs$323 [11] \c [9] }
(define-fun |top#76| ((state |top_s|)) (_ BitVec 1) (bvxor ((_ extract 1 1) (|top#75| state)) ((_ extract 0 0) (|top#0| state)))) ; \c [0]
(define-fun |top#77| ((state |top_s|)) (_ BitVec 1) (bvxor ((_ extract 1 1) (|top#61| state)) ((_ extract 14 14) (|top#0| state)))) ; $auto$opt_expr.cc:205:group_cell_inputs$295
(define-fun |top#78| ((state |top_s|)) (_ BitVec 2) (bvxor (concat ((_ extract 0 0) (|top#53| state)) (|top#63| state)) (concat (|top#77| state) (|top#77| state)))) ; { $auto$opt_expr.cc:205:group_cell_inputs$293 [11] $auto$opt_expr.cc:205:group_cell_inputs$293 [4] }
(define-fun |top#79| ((state |top_s|)) (_ BitVec 1) (bvxor ((_ extract 1 1) (|top#78| state)) ((_ extract 10 10) (|top#0| state)))) ; $auto$opt_expr.cc:205:group_cell_inputs$307
(define-fun |top#80| ((state |top_s|)) (_ BitVec 2) (bvxor (concat ((_ extract 0 0) (|top#69| state)) (|top#77| state)) (concat (|top#58| state) (|top#58| state)))) ; { $auto$opt_expr.cc:205:group_cell_inputs$308 [11] $auto$opt_expr.cc:205:group_cell_inputs$308 [4] }
(define-fun |top#81| ((state |top_s|)) (_ BitVec 1) (bvxor ((_ extract 1 1) (|top#80| state)) ((_ extract 5 5) (|top#0| state)))) ; $auto$opt_expr.cc:205:group_cell_inputs$322
(define-fun |top#82| ((state |top_s|)) (_ BitVec 2) (bvxor (concat ((_ extract 0 0) (|top#71| state)) (|top#79| state)) (concat (|top#81| state) (|top#81| state)))) ; { $auto$opt_expr.cc:205:group_cell_inputs$320 [11] \c [10] }
(define-fun |top#83| ((state |top_s|)) (_ BitVec 1) (bvxor ((_ extract 1 1) (|top#82| state)) ((_ extract 1 1) (|top#0| state)))) ; \c [1]
(define-fun |top#84| ((state |top_s|)) (_ BitVec 2) (bvxor (concat ((_ extract 0 0) (|top#55| state)) (|top#65| state)) (concat (|top#79| state) (|top#79| state)))) ; { $auto$opt_expr.cc:205:group_cell_inputs$305 [11] $auto$opt_expr.cc:205:group_cell_inputs$305 [4] }
(define-fun |top#85| ((state |top_s|)) (_ BitVec 1) (bvxor ((_ extract 1 1) (|top#84| state)) ((_ extract 6 6) (|top#0| state)))) ; $auto$opt_expr.cc:205:group_cell_inputs$319
(define-fun |top#86| ((state |top_s|)) (_ BitVec 2) (bvxor (concat ((_ extract 0 0) (|top#57| state)) (|top#67| state)) (concat (|top#85| state) (|top#85| state)))) ; { $auto$opt_expr.cc:205:group_cell_inputs$317 [11] \c [11] }
(define-fun |top#87| ((state |top_s|)) (_ BitVec 1) (bvxor ((_ extract 1 1) (|top#86| state)) ((_ extract 2 2) (|top#0| state)))) ; \c [2]
(define-fun |top#88| ((state |top_s|)) (_ BitVec 1) (bvxor ((_ extract 1 1) (|top#68| state)) ((_ extract 7 7) (|top#0| state)))) ; $auto$opt_expr.cc:205:group_cell_inputs$316
(define-fun |top#89| ((state |top_s|)) (_ BitVec 2) (bvxor (concat ((_ extract 0 0) (|top#78| state)) (|top#70| state)) (concat (|top#88| state) (|top#88| state)))) ; { $auto$opt_expr.cc:205:group_cell_inputs$314 [11] $auto$opt_expr.cc:205:group_cell_inputs$314 [4] }
(define-fun |top#90| ((state |top_s|)) (_ BitVec 1) (bvxor ((_ extract 1 1) (|top#89| state)) ((_ extract 3 3) (|top#0| state)))) ; \c [3]
(define-fun |top#91| ((state |top_s|)) (_ BitVec 2) (bvxor (concat ((_ extract 0 0) (|top#89| state)) (|top#81| state)) (concat (|top#76| state) (|top#76| state)))) ; { \c [12] \c [5] }
(define-fun |top#92| ((state |top_s|)) (_ BitVec 2) (bvxor (concat ((_ extract 0 0) (|top#73| state)) (|top#85| state)) (concat (|top#83| state) (|top#83| state)))) ; { \c [13] \c [6] }
(define-fun |top#93| ((state |top_s|)) (_ BitVec 2) (bvxor (concat ((_ extract 0 0) (|top#80| state)) (|top#88| state)) (concat (|top#87| state) (|top#87| state)))) ; { \c [14] \c [7] }
(define-fun |top#94| ((state |top_s|)) (_ BitVec 2) (bvxor (concat ((_ extract 0 0) (|top#84| state)) (|top#72| state)) (concat (|top#90| state) (|top#90| state)))) ; { \c [15] \c [8] }
(define-fun |top#95| ((state |top_s|)) Bool (= (concat ((_ extract 1 1) (|top#94| state)) (concat ((_ extract 1 1) (|top#93| state)) (concat ((_ extract 1 1) (|top#92| state)) (concat ((_ extract 1 1) (|top#91| state)) (concat ((_ extract 0 0) (|top#86| state)) (concat ((_ extract 0 0) (|top#82| state)) (concat ((_ extract 0 0) (|top#75| state)) (concat ((_ extract 0 0) (|top#94| state)) (concat ((_ extract 0 0) (|top#93| state)) (concat ((_ extract 0 0) (|top#92| state)) (concat ((_ extract 0 0) (|top#91| state)) (concat (|top#74| state) (concat (|top#90| state) (concat (|top#87| state) (concat (|top#83| state) (|top#76| state)))))))))))))))) #b0010111011110100)) ; $0$formal$measure/crc16.v:10$9_CHECK[0:0]$23
(define-fun |top_u 0| ((state |top_s|)) Bool (or (|top#95| state) (not true))) ; $assume$measure/crc16.v:10$194
(define-fun |top#96| ((state |top_s|)) Bool (bvult ((_ extract 7 0) (|top#0| state)) #b00110000)) ; $ge$measure/crc16.v:10$169.less
(define-fun |top#97| ((state |top_s|)) (_ BitVec 1) (bvnot (ite (|top#96| state) #b1 #b0))) ; $ge$measure/crc16.v:10$169_Y
(define-fun |top#98| ((state |top_s|)) Bool (bvult #b00111001 ((_ extract 7 0) (|top#0| state)))) ; $le$measure/crc16.v:10$170.less
(define-fun |top#99| ((state |top_s|)) (_ BitVec 1) (bvnot (ite (|top#98| state) #b1 #b0))) ; $le$measure/crc16.v:10$170_Y
(define-fun |top#100| ((state |top_s|)) (_ BitVec 1) (bvand (|top#97| state) (|top#99| state))) ; $0$formal$measure/crc16.v:9$3_CHECK[0:0]$11
(define-fun |top_u 1| ((state |top_s|)) Bool (or (= ((_ extract 0 0) (|top#100| state)) #b1) (not true))) ; $assume$measure/crc16.v:9$188
(define-fun |top#101| ((state |top_s|)) Bool (bvult ((_ extract 15 8) (|top#0| state)) #b00110000)) ; $ge$measure/crc16.v:10$172.less
(define-fun |top#102| ((state |top_s|)) (_ BitVec 1) (bvnot (ite (|top#101| state) #b1 #b0))) ; $ge$measure/crc16.v:10$172_Y
(define-fun |top#103| ((state |top_s|)) Bool (bvult #b00111001 ((_ extract 15 8) (|top#0| state)))) ; $le$measure/crc16.v:10$173.less
(define-fun |top#104| ((state |top_s|)) (_ BitVec 1) (bvnot (ite (|top#103| state) #b1 #b0))) ; $le$measure/crc16.v:10$173_Y
(define-fun |top#105| ((state |top_s|)) (_ BitVec 1) (bvand (|top#102| state) (|top#104| state))) ; $0$formal$measure/crc16.v:9$4_CHECK[0:0]$13
(define-fun |top_u 2| ((state |top_s|)) Bool (or (= ((_ extract 0 0) (|top#105| state)) #b1) (not true))) ; $assume$measure/crc16.v:9$189
(define-fun |top#106| ((state |top_s|)) Bool (bvult ((_ extract 23 16) (|top#0| state)) #b00110000)) ; $ge$measure/crc16.v:10$175.less
(define-fun |top#107| ((state |top_s|)) (_ BitVec 1) (bvnot (ite (|top#106| state) #b1 #b0))) ; $ge$measure/crc16.v:10$175_Y
(define-fun |top#108| ((state |top_s|)) Bool (bvult #b00111001 ((_ extract 23 16) (|top#0| state)))) ; $le$measure/crc16.v:10$176.less
(define-fun |top#109| ((state |top_s|)) (_ BitVec 1) (bvnot (ite (|top#108| state) #b1 #b0))) ; $le$measure/crc16.v:10$176_Y
(define-fun |top#110| ((state |top_s|)) (_ BitVec 1) (bvand (|top#107| state) (|top#109| state))) ; $0$formal$measure/crc16.v:9$5_CHECK[0:0]$15
(define-fun |top_u 3| ((state |top_s|)) Bool (or (= ((_ extract 0 0) (|top#110| state)) #b1) (not true))) ; $assume$measure/crc16.v:9$190
(define-fun |top#111| ((state |top_s|)) Bool (bvult ((_ extract 31 24) (|top#0| state)) #b00110000)) ; $ge$measure/crc16.v:10$178.less
(define-fun |top#112| ((state |top_s|)) (_ BitVec 1) (bvnot (ite (|top#111| state) #b1 #b0))) ; $ge$measure/crc16.v:10$178_Y
(define-fun |top#113| ((state |top_s|)) Bool (bvult #b00111001 ((_ extract 31 24) (|top#0| state)))) ; $le$measure/crc16.v:10$179.less
(define-fun |top#114| ((state |top_s|)) (_ BitVec 1) (bvnot (ite (|top#113| state) #b1 #b0))) ; $le$measure/crc16.v:10$179_Y
(define-fun |top#115| ((state |top_s|)) (_ BitVec 1) (bvand (|top#112| state) (|top#114| state))) ; $0$formal$measure/crc16.v:9$6_CHECK[0:0]$17
(define-fun |top_u 4| ((state |top_s|)) Bool (or (= ((_ extract 0 0) (|top#115| state)) #b1) (not true))) ; $assume$measure/crc16.v:9$191
(define-fun |top#116| ((state |top_s|)) Bool (bvult ((_ extract 39 32) (|top#0| state)) #b00110000)) ; $ge$measure/crc16.v:10$181.less
(define-fun |top#117| ((state |top_s|)) (_ BitVec 1) (bvnot (ite (|top#116| state) #b1 #b0))) ; $ge$measure/crc16.v:10$181_Y
(define-fun |top#118| ((state |top_s|)) Bool (bvult #b00111001 ((_ extract 39 32) (|top#0| state)))) ; $le$measure/crc16.v:10$182.less
(define-fun |top#119| ((state |top_s|)) (_ BitVec 1) (bvnot (ite (|top#118| state) #b1 #b0))) ; $le$measure/crc16.v:10$182_Y
(define-fun |top#120| ((state |top_s|)) (_ BitVec 1) (bvand (|top#117| state) (|top#119| state))) ; $0$formal$measure/crc16.v:9$7_CHECK[0:0]$19
(define-fun |top_u 5| ((state |top_s|)) Bool (or (= ((_ extract 0 0) (|top#120| state)) #b1) (not true))) ; $assume$measure/crc16.v:9$192
(define-fun |top#121| ((state |top_s|)) Bool (bvult ((_ extract 47 40) (|top#0| state)) #b00110000)) ; $ge$measure/crc16.v:10$184.less
(define-fun |top#122| ((state |top_s|)) (_ BitVec 1) (bvnot (ite (|top#121| state) #b1 #b0))) ; $ge$measure/crc16.v:10$184_Y
(define-fun |top#123| ((state |top_s|)) Bool (bvult #b00111001 ((_ extract 47 40) (|top#0| state)))) ; $le$measure/crc16.v:10$185.less
(define-fun |top#124| ((state |top_s|)) (_ BitVec 1) (bvnot (ite (|top#123| state) #b1 #b0))) ; $le$measure/crc16.v:10$185_Y
(define-fun |top#125| ((state |top_s|)) (_ BitVec 1) (bvand (|top#122| state) (|top#124| state))) ; $0$formal$measure/crc16.v:9$8_CHECK[0:0]$21
(define-fun |top_u 6| ((state |top_s|)) Bool (or (= ((_ extract 0 0) (|top#125| state)) #b1) (not true))) ; $assume$measure/crc16.v:9$193
(define-fun |top_a| ((state |top_s|)) Bool true)
(define-fun |top_u| ((state |top_s|)) Bool (and
  (|top_u 0| state)
  (|top_u 1| state)
  (|top_u 2| state)
  (|top_u 3| state)
  (|top_u 4| state)
  (|top_u 5| state)
  (|top_u 6| state)
))
(define-fun |top_i| ((state |top_s|)) Bool true)
(define-fun |top_h| ((state |top_s|)) Bool true)
(define-fun |top_t| ((state |top_s|) (next_state |top_s|)) Bool true) ; end of module top
(declare-fun s () |top_s|)
(assert (|top_u| s))
(check-sat)
