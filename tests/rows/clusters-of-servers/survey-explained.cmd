explain --survey three.survey
