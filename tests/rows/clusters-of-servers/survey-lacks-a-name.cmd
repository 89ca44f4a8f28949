verify --survey three.survey
